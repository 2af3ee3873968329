"""Tests of long runs of the program that the gate has left, by the digests of their reports.

The digests come from a model in another language, which was written from the rules alone."""

import hashlib
import re
import subprocess
import unittest

from tool import build
from tool.tests.shared import require_program


CUBE = """
[[cubes]]
vault_bits = 0
bank_bits = 0
rows = 4
queue = 4
"""
LINK = """
[[links]]
a = "{a}"
b = "{b}"
line = 8
tokens = 34
retry = 64
output = 4
"""


def case_of(script: list[str], schedule: str, cube: str = "0 0 4", link: str = "34 64 4") -> bytes:
    """A case of one cube (vault_bits, bank_bits, queue) and one link (tokens, retry, output)."""
    vault_bits, bank_bits, queue = cube.split()
    tokens, retry, output = link.split()
    lines = "".join(f"0 {line}\n" for line in script)
    return f"""profile = 1
script = '''
{lines}'''
schedule = '''
{schedule}'''

[[cubes]]
vault_bits = {vault_bits}
bank_bits = {bank_bits}
rows = 4
queue = {queue}

[[links]]
a = "h0"
b = "c0.0"
line = 8
tokens = {tokens}
retry = {retry}
output = {output}
""".encode()


def writes_and_reads() -> bytes:
    """2,000 writes and reads by turns, while each 301st landing of 83,000 rounds is changed."""
    script = []
    for number in range(1000):
        place = f"0 0x{16 * (number % 64):x}"
        script += [f"wr16 {place} {number.to_bytes(16, 'little').hex()}", f"rd16 {place}"]
    noise = "noise 301 00000000000000000000000000000001\nround 83000\nnoise off\nround 333\n"
    return case_of(script, noise)


def pointers_wrap() -> bytes:
    """So many flits that the pointers of both directions pass 512."""
    script = []
    for number in range(32):
        place = f"0 0x{128 * (number % 8):x}"
        for command, byte in (("wr128", number), ("pwr128", 128 + number)):
            script += [f"{command} {place} {bytes([byte] * 128).hex()}", f"rd128 {place}"]
    return case_of(script, "round 850\n")


def chain_of_eight() -> bytes:
    """Two hosts at the ends of eight cubes write and read all of them, while flits are changed."""
    script = []
    for number in range(200):
        place = f"{number % 8} 0x{16 * (number // 8):x}"
        writer, reader = number % 2, 1 - number % 2
        script += [f"{writer} wr16 {place} {number:032x}", f"{reader} rd16 {place}"]
    ends = ["h0", *(f"c{cube}.{port}" for cube in range(8) for port in (0, 1)), "h1"]
    links = "".join(LINK.format(a=a, b=b) for a, b in zip(ends[::2], ends[1::2], strict=True))
    noise = "noise 701 00000000000000000000000000000001\nround 1200\nnoise off\nround 300"
    lines = "\n".join(script)
    head = f"profile = 1\nscript = '''\n{lines}\n'''\nschedule = '''\n{noise}\n'''\n"
    return (head + CUBE * 8 + links).encode()


class Long(unittest.TestCase):
    @classmethod
    def setUpClass(cls) -> None:
        require_program()

    def check(self, case: bytes, digest: str) -> list[str]:
        """Compares the digest of the report, and returns its lines."""
        command = [str(build.PROGRAM), "run"]
        ran = subprocess.run(command, input=case, capture_output=True, timeout=120)
        self.assertEqual(ran.returncode, 0)
        lines = ran.stdout.decode().splitlines()
        self.assertEqual(hashlib.sha256(ran.stdout).hexdigest(), digest, lines[-3:])
        return lines

    def test_writes_and_reads_with_noise(self) -> None:
        lines = self.check(
            writes_and_reads(), "411d41db1f2581f6d3db7915ede7b6133f79fca6b1a27a0079ada15b45ad3694"
        )
        self.assertEqual(lines[-3:], ["host 0 2000 2000 0", "cube 0 2000 0", "state drained"])
        self.assertEqual([changed_flits(lines, direction) for direction in "01"], [276, 275])

    def test_pointers_that_wrap(self) -> None:
        self.check(
            pointers_wrap(), "054519a4a5cefaa95de798522f60f798931dee0fa1266a9acd052b8f33beb9c3"
        )

    def test_a_chain_of_eight_cubes(self) -> None:
        lines = self.check(
            chain_of_eight(), "3b98f70cdfcad1a3789204a93fc605235b36a49b1ef37c20e9fdd3965825f05f"
        )
        self.assertEqual(lines[-11:-9], ["host 0 200 200 0", "host 1 200 200 0"])
        self.assertEqual(lines[-1], "state drained")
        changed = [changed_flits(lines, str(direction)) for direction in range(18)]
        self.assertEqual((min(changed), max(changed)), (1, 2))


def flits(lines: list[str], word: str, direction: str) -> list[str]:
    """The flits of a direction in the lines with this word, in order."""
    line = re.compile(f"{word} {direction} (?:[a-z]+ )?([0-9a-f]{{32}})")
    return [found[1] for found in map(line.match, lines) if found]


def changed_flits(lines: list[str], direction: str) -> int:
    """How many flits of the direction landed otherwise than they were sent."""
    pairs = zip(flits(lines, "landed", direction), flits(lines, "sent", direction), strict=False)
    return sum(landed != sent for landed, sent in pairs)


if __name__ == "__main__":
    unittest.main()
