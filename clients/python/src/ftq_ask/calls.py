"""The words of the tools' calls. Nothing is imported here that takes long, since a call may be answered by what is running already."""

from __future__ import annotations

import argparse
from pathlib import Path

from .abbreviating import LANGUAGES

FORMATS = ("text", "json", "csv", "xml", "paths", "vimgrep")

ASK = """Asks a folder of XML: loads its files, and answers the questions of --query, or those that are typed at a prompt.

Exit statuses with --query: 0 where something was found, 1 where nothing was, 2 where something went wrong, be it a question or a
file that couldn't be taken. --follow goes on until Ctrl-C. `ask serve FOLDER` serves a folder to a browser instead (ask serve --help).
"""


def parser() -> argparse.ArgumentParser:
    """The words of the tool."""
    it = argparse.ArgumentParser(prog="ask", description=ASK, formatter_class=argparse.RawDescriptionHelpFormatter)
    add_collection(it)
    it.add_argument("--query", metavar="PATH", action="append", default=[], help="answers this question and ends; may be given again")
    it.add_argument("--follow", metavar="PATH", action="append", default=[], help="tells what comes and goes in the answer as files change; may be given again")
    it.add_argument("--format", choices=FORMATS, default="text", help="how the answer to --query or --follow is written")
    it.add_argument("--count", action="store_true", help="writes how many elements there are, and nothing else")
    it.add_argument("--limit", type=number, metavar="N", help="shows N elements at most of each answer")
    it.add_argument("--offset", type=number, default=0, metavar="N", help="leaves out the first N elements")
    it.add_argument("--whole", action="store_true", help="shows the whole text of each element")
    it.add_argument("-C", "--context", type=number, metavar="N", help="shows the line of the file with the first mark, and N lines before and after it")
    it.add_argument("--vimgrep", dest="format", action="store_const", const="vimgrep", help="writes FILE:LINE:COLUMN:TEXT, as editors read it")
    it.add_argument("--every-mark", action="store_true", help="shows a stretch of text round each mark, not round the first alone")
    it.add_argument("--as-typed", action="store_true", help="asks as it is typed: without it ' and ’ find each other")
    it.add_argument("--timeout", type=seconds, metavar="SECONDS", help="gives a question up that isn't answered in so many seconds")
    it.add_argument("--scheduler", metavar="ADDRESS", help="divides the documents over the workers of Dask's scheduler there")
    return it


def add_collection(it: argparse.ArgumentParser) -> None:
    """The words of a call that say what is asked, and by which programs."""
    it.add_argument("paths", nargs="+", type=Path, metavar="FOLDER|FILE")
    add_arguments(it)
    it.add_argument("--stem", metavar="LANGUAGE", help="makes the stems of the collection's words, for using stemming")
    it.add_argument("--stop", metavar="LANGUAGE", action="append", default=[], help='loads a stop list, for using stop words at "LANGUAGE"')
    it.add_argument(
        "--abbreviations",
        metavar="LANGUAGE|FILE",
        action="append",
        default=[],
        help=f"words behind which a period ends no sentence: of a language ({', '.join(LANGUAGES)}) or one in each line of a file; may be given again",
    )
    it.add_argument("--workers", type=number, metavar="N", help="divides the documents among N programs")
    it.add_argument("--no-cache", action="store_true", help="keeps nothing of what is read, and uses nothing that was kept")
    it.add_argument("--program", type=Path, metavar="FILE", help="the program that answers")


def number(word: str) -> int:
    """A number that a word of a call gives."""
    told = int(word)
    if told < 0:
        raise argparse.ArgumentTypeError("a number below zero")
    return told


def seconds(word: str) -> float:
    """A time that a word of a call gives."""
    told = float(word)
    if not told > 0:
        raise argparse.ArgumentTypeError("no time at all")
    return told


def read_words(arguments: list[str]) -> argparse.Namespace:
    """The words of a call. Those that say how an answer is written have no meaning at the prompt, and are faulty without a question."""
    words = parser()
    options = words.parse_args(arguments)
    for name in ("count", "limit", "offset"):
        if not options.query and getattr(options, name) != words.get_default(name):
            words.error(f"--{name} is for the answer to --query, and there is none")
    for name in ("format", "whole", "every_mark", "context"):
        if not (options.query or options.follow) and getattr(options, name) != words.get_default(name):
            words.error(f"--{name.replace('_', '-')} is for the answer to --query or --follow, and there is none")
    for name in ("query", "workers", "scheduler") if options.follow else ():
        if getattr(options, name):
            words.error(f"--follow goes on with one program, and has no place beside --{name}")
    if options.follow and options.format in ("vimgrep", "xml"):
        words.error(f"--follow tells what comes and what goes, and has no place for that in --format {options.format}")
    return options


def add_arguments(parser: argparse.ArgumentParser) -> None:
    """The words of a call that say which files of folders are read, and how."""
    parser.add_argument(
        "--glob", metavar="PATTERN", action="append", default=[], help="reads the files of folders that match; with ! before it those that don't"
    )
    parser.add_argument("--verbose", action="store_true", help="names the files of folders that are passed over, and says why")
    parser.add_argument("--no-dtd", action="store_true", help="reads no document type in other files")
    parser.add_argument("--no-xinclude", action="store_true", help="brings in no files that documents include")
    parser.add_argument("--no-catalog", action="store_true", help="looks into no catalog for document types and entities")
    blanks = parser.add_mutually_exclusive_group()
    blanks.add_argument("--drop-blanks", action="store_true", help="leaves out white space between elements")
    blanks.add_argument("--keep-blanks", action="store_true", help="keeps it also where a document type says that it means nothing")
    parser.add_argument(
        "--blocks", metavar="NAME,..", action="append", default=[], help="the elements of these names part paragraphs, beside those that always do"
    )
