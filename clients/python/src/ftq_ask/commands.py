"""Asks a folder of XML: loads its files, and answers the questions of --query or --follow, or those that are typed at a prompt."""

from __future__ import annotations

import argparse
import os
import sys
import time
from pathlib import Path
from typing import Any

from rich.console import Console

from ftq_client import ClientError, Refusal, TimedOut, find_program

from . import answers
from .abbreviating import Abbreviations
from .caching import Cache, cache_file
from .calls import read_words
from .choosing import Choice, bytes_at, rules_of
from .collection import Collection, Planned
from .engines import engine_of
from .lists import NoList, Stems
from .loading import MOST_PROCESSES, Reader
from .marking import Marking, hint_of
from .missing import all_hints
from .shares import scheduled_shares

FOUND, NONE, FAULT = 0, 1, 2

BYTES_EACH = 4_000_000
"""How many bytes of files are enough to do for a program."""


def main(arguments: list[str]) -> int:
    """The tool: its exit status."""
    if arguments[:1] == ["serve"]:
        from .serving.command import serve

        return serve(arguments[1:])
    options = read_words(arguments)
    if options.follow:
        from .following import follow
    errors = Console(stderr=True)
    try:
        abbreviations = Abbreviations(options.abbreviations)
        collection = Collection(_engine(options), Stems(options.stem) if options.stem else None, Choice(options.glob), rules_of(options))
        collection.as_typed = options.as_typed
    except (ClientError, NoList, OSError, ValueError) as error:
        answers.say(errors, f"ask: {error}")
        return FAULT
    start = time.monotonic()
    collection.reader = reader_of(options)

    def begin() -> None:
        load(collection, options, abbreviations, errors)
        tell(collection, options, errors)
        if not options.query:
            answers.say(errors, loaded(collection, start))
        collection.seconds = options.timeout
        collection.engine.give_up_after(options.timeout)

    try:
        if options.follow:
            return follow(collection, options, begin, errors)
        begin()
        if options.query:
            return answer_all(collection, options, errors)
        from .prompt import converse

        return converse(collection, errors)
    except (NoList, ClientError) as error:
        answers.say(errors, f"ask: {error}")
        return FAULT
    except BrokenPipeError:
        # Nobody reads on; what is left unwritten goes nowhere, without a word at the end.
        os.dup2(os.open(os.devnull, os.O_WRONLY), sys.stdout.fileno())
        return FAULT
    finally:
        # A program that is ended at once needn't give back piece by piece what it holds.
        collection.engine.interrupt()
        collection.engine.close()


def _engine(options: argparse.Namespace) -> Any:
    """The program or the programs that answer."""
    program = options.program or find_program()
    if options.scheduler:
        return scheduled_shares(options.scheduler, options.workers, program)
    return engine_of(program, options.workers or (_usual_workers(options) if options.query else 1))


def _usual_workers(options: argparse.Namespace) -> int:
    """Among how many programs the documents are divided where the call doesn't say: among as many as there are processors, where there is enough to
    do for each. That is for calls with --query, which ask nothing that isn't divided."""
    most = min(MOST_PROCESSES, len(os.sched_getaffinity(0)))
    return max(1, bytes_at(options.paths, most * BYTES_EACH) // BYTES_EACH)


def reader_of(options: argparse.Namespace) -> Reader:
    """What reads the files, as the words of a call say. A scheduler's client has threads, beside which no processes are begun."""
    return Reader(rules_of(options), None if options.no_cache else Cache(cache_file()), 0 if options.scheduler else None)


def load(collection: Collection, options: argparse.Namespace, abbreviations: Abbreviations, errors: Console) -> None:
    """Loads the files, with a bar where there is a terminal, and the lists that go with them."""
    if options.abbreviations:
        collection.send_abbreviations(abbreviations)
    planned = collection.plan(options.paths)
    if errors.is_terminal:
        _load_with_bar(collection, planned, errors)
    else:
        collection.load(planned, lambda path: None)
    collection.send_stems()
    for language in options.stop:
        collection.send_stop_list(language)


def tell(collection: Collection, options: argparse.Namespace, errors: Console) -> None:
    """Says what of the files wasn't taken, and which names of --blocks no element has."""
    for line in collection.choice.lines(options.verbose):
        answers.say(errors, f"ask: {line}")
    for untaken in collection.untaken:
        answers.say(errors, f"ask: {untaken}")
    for name in sorted(collection.rules.blocks - collection.vocabulary.elements.keys()):
        answers.say(errors, f"ask: --blocks names {name}, and no document has such an element")


def loaded(collection: Collection, start: float) -> str:
    """What was loaded since a time, in words."""
    count = len(collection.sources)
    return f"{count:,} document{'' if count == 1 else 's'}, {collection.bytes / 1e6:,.1f} MB, in {time.monotonic() - start:.1f} s"


def _load_with_bar(collection: Collection, planned: list[Planned], errors: Console) -> None:
    from rich.progress import BarColumn, MofNCompleteColumn, Progress, TextColumn, TimeElapsedColumn

    columns = (TextColumn("loading"), BarColumn(), MofNCompleteColumn(), TimeElapsedColumn(), TextColumn("{task.description}"))
    with Progress(*columns, console=errors, transient=True) as progress:
        task = progress.add_task("", total=len(planned))
        collection.load(planned, lambda path: progress.update(task, advance=1, description=str(path)[-40:]))


def answer_all(collection: Collection, options: argparse.Namespace, errors: Console, console: Console | None = None) -> int:
    """Answers the questions of --query, one after the other, on a console or standard output; hints and faults are written on standard error."""
    manner = answers.Manner(options.whole, options.every_mark, options.context)
    out = answers.Output(collection, options.format, options.count, manner, len(options.query) > 1, console, options.offset)
    faulty, some = bool(collection.untaken), False
    for path in options.query:
        try:
            found = collection.query(path)
        except Refusal as refusal:
            answers.say_refusal(errors, path, refusal, collection, "ask: ")
            faulty = True
            continue
        except TimedOut as late:
            answers.say(errors, f"ask: {late}: {path}")
            faulty = True
            continue
        some = some or bool(found)
        last = None if options.limit is None else options.offset + options.limit
        shown = found[options.offset : last]
        marking = Marking(path, collection, len(shown) == len(found))
        if out.form in ("json", "xml"):
            out.write(path, len(found), shown, all_hints(path, len(found), collection), marking)
        else:
            out.write(path, len(found), shown, [], marking)
            out.out.flush()
            answers.say_hints(errors, [*all_hints(path, len(found), collection), *hint_of(marking, collection)])
    out.end()
    return FAULT if faulty else FOUND if some else NONE
