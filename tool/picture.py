"""Makes the picture of a page of `view` in docs/tool.md, by Chromium without a window."""

from __future__ import annotations

import shutil
import subprocess
import sys
import tempfile
from pathlib import Path

from tool import kit
from tool.trouble import UNAVAILABLE

TOP = Path(__file__).resolve().parent.parent
PICTURE = TOP / "docs" / "view.png"
EXAMPLE = TOP / "examples" / "changed-flit"
SIZE = "1250,560"
# What the page is asked for: the first request, of which a flit was changed.
WISHES = "theme=light&request=0"
# So many milliseconds has the page to draw itself.
TIME = 6000
SECONDS = 60


def make(browser: str, picture: Path) -> None:
    """Makes the picture."""
    with tempfile.TemporaryDirectory(prefix="zehimbado-") as folder:
        page = Path(folder) / "page.html"
        names = [str(EXAMPLE.with_suffix(end)) for end in (".report", ".toml")]
        script = [sys.executable, str(TOP / kit.CALLED), "view", *names, "-o", str(page)]
        subprocess.run(script, check=True, timeout=SECONDS)
        words = ["--headless", "--no-sandbox", "--disable-gpu", "--hide-scrollbars"]
        words += (f"--window-size={SIZE}", f"--virtual-time-budget={TIME}")
        asked = (f"--screenshot={picture}", f"{page.as_uri()}#{WISHES}")
        subprocess.run([browser, *words, *asked], check=True, capture_output=True, timeout=SECONDS)


def main() -> int:
    """Makes docs/view.png anew."""
    browser = shutil.which("chromium")
    if browser is None:
        print("chromium is not there: apt-get install chromium", file=sys.stderr)
        return UNAVAILABLE
    make(browser, PICTURE)
    return 0


if __name__ == "__main__":
    sys.exit(main())
