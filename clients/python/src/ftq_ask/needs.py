"""Debian's packages that the tools need, and what is said where one is missing."""

from __future__ import annotations

import importlib
import sys
from pathlib import Path

PACKAGES = {
    "lxml": "python3-lxml",
    "prompt_toolkit": "python3-prompt-toolkit",
    "rich": "python3-rich",
    "Stemmer": "python3-stemmer",
    "distributed": "python3-distributed",
    "starlette": "python3-starlette",
    "uvicorn": "python3-uvicorn",
    "jinja2": "python3-jinja2",
    "watchdog": "python3-watchdog",
}
"""The package that brings each module."""

USUAL = "apt-get install python3-lxml python3-prompt-toolkit python3-rich python3-stemmer"
"""The line that installs all that the tools use on one machine."""

SERVING = "apt-get install python3-starlette python3-uvicorn python3-jinja2"
"""The line that installs what serve needs besides."""

FOLLOWING = "apt-get install python3-watchdog"
"""The line that installs what --follow needs besides."""

CLUSTER = "apt-get install python3-distributed"
"""The line that installs what --scheduler needs besides."""

EXTRAS = {"ask": USUAL, "serve": SERVING, "follow": FOLLOWING, "cluster": CLUSTER}
"""What this package calls those needs, where it is installed by pip."""


INTERRUPTED = 130
"""The status of a command that Ctrl-C has ended, as shells have it."""


def line_for(module: str) -> str:
    """The line that installs what is missing, with all that is needed for the same. An environment of its own doesn't look at Debian's
    packages, and gets what the package itself names."""
    extra = next(it for it, line in EXTRAS.items() if PACKAGES[module] in line.split())
    return f"pip install ftq-client[{extra}]" if sys.prefix != sys.base_prefix else EXTRAS[extra]


def ask() -> int:
    """The command ask: answered by what is running already, or by its own modules."""
    try:
        from .beside import answered

        status = answered(sys.argv[1:])
        return run("ftq_ask.commands") if status is None else status
    except KeyboardInterrupt:
        return INTERRUPTED


def pack() -> int:
    """The command ftq-pack of the installed package."""
    try:
        return run("ftq_ask.packing")
    except KeyboardInterrupt:
        return INTERRUPTED


def run(module: str) -> int:
    """The status of the `main` of one of this package's modules, for the words of the call; 2 where something that it imports isn't installed."""
    try:
        return int(importlib.import_module(module).main(sys.argv[1:]))
    except ModuleNotFoundError as error:
        missing = (error.name or "").split(".")[0]
        if missing not in PACKAGES:
            raise
        print(f"{Path(sys.argv[0]).name}: {PACKAGES[missing]} is not installed for {sys.executable}: {line_for(missing)}", file=sys.stderr)
        return 2
