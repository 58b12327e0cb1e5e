"""Packages of Python that some commands want and that may be missing: another Python that has them, or the name of the Debian package.

A command imports such a package where it needs it. `imported(module)` imports a command's module, and `wanting(work)` does its work; where a package
of the table is missing there, the whole command begins anew with the system's Python, if that one has it, or else one line says what to install.
Nothing is looked for before something is missing, so that a start costs nothing. DLKT_PYTHON names the only Python that is to be used.
"""

import importlib
import os
import subprocess
import sys
from types import ModuleType
from typing import Callable, TypeVar

from dlkt.program import Refused

Given = TypeVar("Given")

SYSTEM = "/usr/bin/python3"
DEBIAN = {
    "dask": "python3-dask",
    "distributed": "python3-distributed",
    "hypothesis": "python3-hypothesis",
    "lark": "python3-lark",
    "matplotlib": "python3-matplotlib",
    "prompt_toolkit": "python3-prompt-toolkit",
    "pylsp_jsonrpc": "python3-pylsp-jsonrpc",
    "z3": "python3-z3",
}


def system_has(package: str) -> bool:
    """Whether the system's Python is another one than this, is new enough, and has a package."""
    if os.environ.get("DLKT_PYTHON") or not os.access(SYSTEM, os.X_OK) or os.path.realpath(sys.executable) == os.path.realpath(SYSTEM):
        return False
    asking = f"import importlib.util, sys; sys.exit(sys.version_info < (3, 11) or importlib.util.find_spec({package!r}) is None)"
    return subprocess.run([SYSTEM, "-c", asking], stdin=subprocess.DEVNULL, capture_output=True, check=False).returncode == 0


def do_without(fault: ModuleNotFoundError) -> Refused:
    """Why a command can't do its work without a package; where the system's Python has it, the command begins anew there. What is missing else is
    a fault of this program, and stays one."""
    package = (fault.name or "").partition(".")[0]
    if package not in DEBIAN:
        raise fault
    if system_has(package):
        os.environ["DLKT_PYTHON"] = SYSTEM
        os.execv(SYSTEM, [SYSTEM, *sys.orig_argv[1:]])
    return Refused(f"Python's package {package} is missing: apt-get install {DEBIAN[package]}, or name a Python that has it in DLKT_PYTHON")


def imported(module: str) -> ModuleType:
    """A command's module. Where it can't be imported without a package, the program ends with a line."""
    try:
        return importlib.import_module(module)
    except ModuleNotFoundError as fault:
        sys.exit(f"dlkt: {do_without(fault)}")


def wanting(work: Callable[[Given], int]) -> Callable[[Given], int]:
    """A command's work, which is refused in one line where a package is missing."""

    def done(given: Given) -> int:
        try:
            return work(given)
        except ModuleNotFoundError as fault:
            raise do_without(fault) from None

    return done
