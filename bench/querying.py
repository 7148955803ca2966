"""The questions of questions.py, asked of ftq and its peers in turns."""

import contextlib
import os
from functools import partial

import asking
import bars
import basex
import peers
from questions import QUESTIONS, SYNONYMS


def querying(bench, material, only_quick=False):
    """Questions over the documents, each asked in turns; all programs have to find as many elements."""
    questions = [it for it in QUESTIONS if it.quick or not only_quick]
    with contextlib.ExitStack() as stack:
        asked = peers_of(material, questions, stack)
        ftq = stack.enter_context(asking.Conversation())
        ftq.load(asking.loads_of(material.documents) + lists_for(material, asked))
        for question in questions:
            programs = {bars.FTQ: partial(ftq.found, f"collection(){question.path}")}
            for peer in asked:
                programs.update(peer.programs(question))
            bench.compare(question.what, programs, bar=question.bar, note=lambda count: f"{count} found", warm=True)


def peers_of(material, questions, stack):
    """The peers that are installed, with the documents in them; they are closed with the stack."""
    paragraphs, made = peers.paragraphs_of(material.documents), []
    if peers.has_fts5():
        made.append(peers.Fts5(paragraphs))
    if peers.xapian:
        made.append(peers.Xapian(os.path.join(material.folder, "xapian"), paragraphs))
    if basex.is_installed():
        material.written("many", material.documents)
        made.append(basex.BaseX(material.folder_of("basex"), material.folder_of("many"), questions, SYNONYMS))
    for peer in made:
        stack.callback(peer.close)
    return made


def lists_for(material, asked):
    """The commands that load the lists which questions use: a thesaurus, and stems by BaseX's stemmer, or none where it isn't installed."""
    synonyms = "".join(f"synonym | {term} | {other}\n" for term, other in SYNONYMS)
    stemmer = next((peer for peer in asked if peer.name == bars.BASEX), None)
    stems = stemmer.stems_of(peers.words_of(material.documents)) if stemmer else []
    lines = "".join(f"{word} {stem}\n" for word, stem in stems)
    return [f"thesaurus synonyms\n{synonyms}.\n".encode("ascii"), f"stems\n{lines}.\n".encode("ascii")]


def beside(bench, material, other):
    """The questions that need no list, asked of another ftq and of this one in turns."""
    with asking.Conversation(other) as before, asking.Conversation() as now:
        for conversation in (before, now):
            conversation.load(asking.loads_of(material.documents))
        for question in QUESTIONS:
            if "thesaurus" in question.path or "stemming" in question.path:
                continue
            path = f"collection(){question.path}"
            programs = {bars.FTQ: partial(now.found, path), "the other ftq": partial(before.found, path)}
            bench.compare(question.what, programs, note=lambda count: f"{count} found", warm=True)
