"""The rounds from requests to their answers, of the network of first_driver.c: see bench/rounds."""

from __future__ import annotations

import subprocess

from tool import build, case, documents
from tool.kit import TOP

# The first request is that of the page; each of the others is alone in the network.
WRITE = f"wr16 0 0x40 {'5c' * 16}"
READS = {f"{word}_of_{cube}": f"{word} {cube} 0x0" for word in ("rd16", "rd256") for cube in (0, 1)}


def rounds() -> dict[str, int]:
    """By the proved program: a fence before each request waits for the answer to the one before."""
    document, _ = case.read((TOP / "bindings" / "tests" / "chain.toml").read_bytes())
    requests = {"first": WRITE, **READS}
    document["script"] = "".join(f"0 fence\n0 {it}\n" for it in requests.values())
    document["schedule"] = "round 200\n"
    given = documents.text_of(document).encode()
    ran = subprocess.run([build.PROGRAM, "run"], input=given, capture_output=True, check=True)
    steps = case.plan_of(document).round_steps
    lines = ran.stdout.decode().splitlines()
    gave, took = (
        [at // steps for at, it in enumerate(lines) if it.startswith(word)]
        for word in ("gave ", "took ")
    )
    # The first one waits for the link to train, which began with the first round.
    waits = [after - before + 1 for before, after in zip(gave, took, strict=True)]
    return dict(zip(requests, waits, strict=True))
