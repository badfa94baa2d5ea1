"""Reads the pages of web archives (WARC), and writes their RDFa and Microdata.

DIR gets a folder for each shard of an archive, with quads, items, a table of pages and sums; and a report as report.txt,
report.json and report.html. The same command goes on with what was interrupted, and one that is done changes nothing.
The status is 0 where each shard is done, 1 where one isn't, 3 where a file couldn't be read or written, and 69 where a
library isn't there.
"""

from __future__ import annotations

import argparse
import os
import sys
from pathlib import Path

from rdfax.archives import READERS
from rdfax.crawling.crawl import Crawl
from rdfax.crawling.options import COMPRESSIONS, Limits, Options
from rdfax.crawling.scheduling import SchedulerLost, engine
from rdfax.errors import Usage

__all__ = ["add_arguments", "run"]

UNDONE, NO_LIBRARY = 1, 69


def _natural(word: str) -> int:
    if not word.isdecimal():
        raise argparse.ArgumentTypeError(f"{word!r} is no whole number")
    return int(word)


def _positive(word: str) -> int:
    number = _natural(word)
    if number == 0:
        raise argparse.ArgumentTypeError("0 is too few")
    return number


def add_arguments(parser: argparse.ArgumentParser) -> None:
    """Adds the command's options."""
    defaults = Limits()
    parser.add_argument("archives", nargs="+", metavar="ARCHIVE", help="a WARC file, compressed record by record or not at all")
    parser.add_argument("--out", required=True, metavar="DIR", type=Path, help="the folder of what is written")
    parser.add_argument("--mend", action="store_true", help="mend the pages that are refused, and say so")
    parser.add_argument("--places", action="store_true", help="with --mend: say where the original says each triple and item; it takes long")
    parser.add_argument("--rdfa", action="store_true", help="write RDFa, and Microdata only with --items; both where neither is named")
    parser.add_argument("--items", action="store_true", help="write Microdata, and RDFa only with --rdfa")
    where = parser.add_mutually_exclusive_group()
    where.add_argument("--scheduler", metavar="ADDRESS", help="Dask's scheduler, as tcp://machine:8786")
    where.add_argument("--workers", type=_natural, metavar="N", default=os.cpu_count(), help="as many processes here; 0 does without Dask")
    parser.add_argument("--compress", choices=COMPRESSIONS, default="gzip", help="how quads, items and tables are compressed")
    parser.add_argument("--records", type=_positive, metavar="N", default=Options.records, help="the most records of a shard (%(default)s)")
    parser.add_argument("--bytes", type=_positive, metavar="N", default=defaults.bytes, help="the most bytes of a page (%(default)s)")
    parser.add_argument("--seconds", type=_positive, metavar="N", default=defaults.seconds, help="the most processor time of a page (%(default)s)")
    parser.add_argument("--mebibytes", type=_positive, metavar="N", default=defaults.mebibytes, help="the most memory of a page (%(default)s)")
    parser.add_argument(
        "--reader", choices=READERS, default=Options.reader, help="what cuts archives into records: warcio where it is installed, or one of the two"
    )


def run(arguments: argparse.Namespace) -> int:
    """Crawls, says what came of it, and answers the status."""
    both = not (arguments.rdfa or arguments.items)
    limits = Limits(arguments.bytes, arguments.seconds, arguments.mebibytes)
    if arguments.places and not arguments.mend:
        raise Usage("--places goes with --mend: of a page that isn't mended nothing has two places")
    options = Options(
        rdfa=arguments.rdfa or both,
        items=arguments.items or both,
        mend=arguments.mend,
        places=arguments.places,
        compression=arguments.compress,
        reader=arguments.reader,
        records=arguments.records,
        limits=limits,
    )
    try:
        with engine(arguments.scheduler, arguments.workers) as workers:
            report = Crawl(arguments.out, options).run(arguments.archives, workers)
    except SchedulerLost as lost:
        print(f"rdfax: {lost}", file=sys.stderr)
        return UNDONE
    except ImportError as error:
        print(f"rdfax: {error}", file=sys.stderr)
        return NO_LIBRARY
    print(report.head())
    return UNDONE if report.undone else 0
