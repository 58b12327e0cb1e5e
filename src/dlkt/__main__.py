"""`python3 -m dlkt`. It says where Python is too old for the rest, which is read only then."""

import os
import sys

OLDEST = (3, 11)
SYSTEM = "/usr/bin/python3"


def main() -> int:
    """Does what the words of the command line say, and gives the exit status. Where this Python is too old the system's is tried."""
    if sys.version_info < OLDEST:
        if not os.environ.get("DLKT_PYTHON") and os.path.realpath(sys.executable) != os.path.realpath(SYSTEM) and os.access(SYSTEM, os.X_OK):
            os.environ["DLKT_PYTHON"] = SYSTEM
            os.execv(SYSTEM, [SYSTEM, *(["-m", "dlkt"] if sys.argv[0].endswith("__main__.py") else [sys.argv[0]]), *sys.argv[1:]])
        sys.exit("dlkt: it wants Python 3.11 or newer, and %s is %d.%d" % (sys.executable, *sys.version_info[:2]))
    try:
        from dlkt import cli

        return cli.main(sys.argv[1:])
    except KeyboardInterrupt:  # before a command began, or behind its end
        print("dlkt: interrupted", file=sys.stderr)
        return 130


if __name__ == "__main__":
    sys.exit(main())
