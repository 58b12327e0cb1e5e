#!/usr/bin/env python3
"""Puts dlkt in one file, which Python runs: the package with its data, and a start that finds `dlk` in the same folder.

    python3 dev/zipped.py OUT

`./dlk --install` does so. The file wants Python 3.11 or newer, and where DLK names no program, it takes the `dlk` beside itself, or else that of PATH.
"""

import argparse
import shutil
import sys
import tempfile
import zipapp
from pathlib import Path

PACKAGE = Path(__file__).resolve().parent.parent / "src" / "dlkt"
START = '''"""dlkt in one file. Where DLK names no program, it is the `dlk` beside this file, or else that of PATH."""

import os
import shutil
import sys

beside = os.path.join(os.path.dirname(os.path.realpath(sys.argv[0])), "dlk")
program = beside if os.access(beside, os.X_OK) else shutil.which("dlk")
if program:
    os.environ.setdefault("DLK", program)

from dlkt.__main__ import main

sys.exit(main())
'''


def write(out: Path) -> None:
    """Writes the file."""
    with tempfile.TemporaryDirectory() as name:
        folder = Path(name)
        shutil.copytree(PACKAGE, folder / "dlkt", ignore=shutil.ignore_patterns("__pycache__", "*.pyc"))
        (folder / "__main__.py").write_text(START, encoding="utf-8")
        zipapp.create_archive(folder, out, interpreter="/usr/bin/env python3", compressed=True)


def main() -> int:
    """Writes the file that is named."""
    words = argparse.ArgumentParser(description=__doc__, formatter_class=argparse.RawDescriptionHelpFormatter)
    words.add_argument("out", metavar="OUT", type=Path, help="the file to write")
    try:
        write(words.parse_args().out)
    except OSError as why:
        print(f"zipped.py: {why}", file=sys.stderr)
        return 1
    return 0


if __name__ == "__main__":
    sys.exit(main())
