"""`python3 -m rdfax COMMAND ..`: each command is a module of `rdfax.commands`, imported when it is named."""

from __future__ import annotations

import argparse
import importlib
import os
import sys
from collections.abc import Callable, Sequence

from rdfax._library import LibraryMissing
from rdfax._version import __version__
from rdfax.errors import BadContext, Usage

# The statuses of the command `rdfax`, and those of the shell.
USAGE, UNREADABLE, NO_MEMORY, BAD_CONTEXT, NO_LIBRARY, INTERRUPTED, BROKEN_PIPE = 2, 3, 5, 6, 69, 130, 141

# Of each command what its module does: `add_arguments(parser)` adds its options, `run(arguments)` answers the exit status.
COMMANDS = {
    "check": "check pages, and show where each refused one is faulty",
    "extract": "write the RDFa of pages as N-Quads, Turtle or JSON-LD",
    "items": "write the Microdata of pages as JSON",
    "crawl": "read web archives, and gather the data of their pages",
    "serve": "open a page to look at: what a page says, and why it is refused",
    "report": "write what pages say, and why they are refused, as one HTML file",
    "mend": "write a mended copy of a refused page",
}


def _own_parser() -> argparse.ArgumentParser:
    lines = [f"  {name:8} {says}" for name, says in COMMANDS.items()]
    parser = argparse.ArgumentParser(
        prog="python3 -m rdfax",
        description="The data that authors embed in web pages: RDFa and Microdata.",
        epilog="commands:\n" + "\n".join(lines) + "\n\n`python3 -m rdfax COMMAND --help` tells the options of one.",
        formatter_class=argparse.RawDescriptionHelpFormatter,
    )
    parser.add_argument("--version", action="version", version=f"rdfax {__version__}")
    parser.add_argument("command", choices=COMMANDS, metavar="COMMAND", help="one of those below")
    parser.add_argument("arguments", nargs=argparse.REMAINDER, metavar="..", help="what the command takes")
    return parser


def main(arguments: Sequence[str] | None = None) -> int:
    """Does what the words ask for, and answers the exit status."""
    own = _own_parser()
    chosen = own.parse_args(arguments)
    module = importlib.import_module(f"rdfax.commands.{chosen.command}")
    parser = argparse.ArgumentParser(prog=f"{own.prog} {chosen.command}", description=module.__doc__, formatter_class=argparse.RawDescriptionHelpFormatter)
    module.add_arguments(parser)
    words = parser.parse_args(chosen.arguments)
    return _status(lambda: int(module.run(words)))


def _status(work: Callable[[], int]) -> int:
    """The status of the work, or of the error that ended it, which is told on standard error."""
    try:
        return work()
    except KeyboardInterrupt:
        return INTERRUPTED
    except BrokenPipeError:
        # Whoever reads has enough. Python is to say nothing of what it couldn't write.
        os.dup2(os.open(os.devnull, os.O_WRONLY), sys.stdout.fileno())
        return BROKEN_PIPE
    except (Usage, OSError, BadContext, MemoryError, LibraryMissing) as error:
        print(f"rdfax: {error}", file=sys.stderr)
        statuses = {Usage: USAGE, OSError: UNREADABLE, BadContext: BAD_CONTEXT, MemoryError: NO_MEMORY, LibraryMissing: NO_LIBRARY}
        return next(status for kind, status in statuses.items() if isinstance(error, kind))


if __name__ == "__main__":
    sys.exit(main())
