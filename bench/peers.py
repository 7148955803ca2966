"""The programs beside which ftq is measured, each where it is installed: xmllint, SQLite's FTS5, Xapian, and BaseX of basex.py."""

import os
import re
import shutil
import sqlite3
import subprocess
import time
import xml.etree.ElementTree as ElementTree

import bars
import basex

try:
    import xapian
except ImportError:
    xapian = None


def missing():
    """The names of the peers that aren't installed, with what brings them."""
    names = []
    if not shutil.which("xmllint"):
        names.append("xmllint (Debian: libxml2-utils)")
    if not has_fts5():
        names.append("SQLite FTS5")
    if not xapian:
        names.append("Xapian (Debian: python3-xapian, for /usr/bin/python3)")
    if not basex.is_installed():
        names.append("BaseX (Debian: basex)")
    return names


def has_fts5():
    """Whether SQLite was built with FTS5."""
    try:
        sqlite3.connect(":memory:").execute("create virtual table p using fts5(text)")
    except sqlite3.OperationalError:
        return False
    return True


def text_of(element):
    """All text in an element."""
    return "".join(element.itertext())


def paragraphs_of(documents):
    """The text of each paragraph of the documents."""
    return [text_of(paragraph) for document in documents for paragraph in ElementTree.fromstring(document).iter("p")]


def words_of(documents):
    """The words of the documents, each once, in order."""
    words = set()
    for document in documents:
        words.update(re.findall(r"\w+", re.sub(r"<[^>]*>", " ", document.decode("utf-8")).lower()))
    return sorted(words)


def size_of(folder):
    """The bytes of the files of a folder."""
    return sum(os.path.getsize(os.path.join(inside, name)) for inside, _, names in os.walk(folder) for name in names)


def xmllint_seconds(paths, options=()):
    """The seconds that xmllint takes to read documents."""
    start = time.perf_counter()
    subprocess.run(["xmllint", *options, "--noout", *paths], check=True)
    return time.perf_counter() - start


class Fts5:
    """Paragraphs in a table of SQLite's, in memory."""

    name = bars.FTS5

    def __init__(self, texts):
        self.connection = sqlite3.connect(":memory:")
        self.connection.execute("create virtual table p using fts5(text)")
        self.index_seconds = self.changed("insert into p values (?)", [(text,) for text in texts])

    def close(self):
        """Gives the table up."""
        self.connection.close()

    def changed(self, statement, rows):
        """The seconds that a statement takes for all rows, and to commit."""
        start = time.perf_counter()
        self.connection.executemany(statement, rows)
        self.connection.commit()
        return time.perf_counter() - start

    def bytes_kept(self):
        """The bytes of the table and its index."""
        pages, size = (self.connection.execute(f"pragma {it}").fetchone()[0] for it in ("page_count", "page_size"))
        return pages * size

    def programs(self, question):
        """How FTS5 is asked a question, where it can be."""
        return {f"{self.name}, counting": lambda: self._count(question.match)} if question.match else {}

    def _count(self, match):
        """How many paragraphs match, and the seconds that it takes to count them."""
        start = time.perf_counter()
        found = self.connection.execute("select count(*) from p where p match ?", (match,)).fetchone()[0]
        return found, time.perf_counter() - start


class Xapian:
    """Paragraphs in a database of Xapian's, in a folder."""

    name = bars.XAPIAN

    def __init__(self, folder, texts):
        self.folder = folder
        start = time.perf_counter()
        self.database = xapian.WritableDatabase(folder, xapian.DB_CREATE_OR_OVERWRITE | xapian.DB_NO_SYNC)
        terms = xapian.TermGenerator()
        terms.set_stemming_strategy(xapian.TermGenerator.STEM_NONE)
        for text in texts:
            document = xapian.Document()
            terms.set_document(document)
            terms.set_termpos(0)
            terms.index_text(text)
            self.database.add_document(document)
        self.database.commit()
        self.index_seconds = time.perf_counter() - start
        self.parser = xapian.QueryParser()
        self.parser.set_database(self.database)
        self.parser.set_stemming_strategy(xapian.QueryParser.STEM_NONE)
        self.flags = xapian.QueryParser.FLAG_BOOLEAN | xapian.QueryParser.FLAG_PHRASE | xapian.QueryParser.FLAG_WILDCARD

    def close(self):
        """Gives the database up."""
        self.database.close()
        shutil.rmtree(self.folder)

    def bytes_kept(self):
        """The bytes of the database on the disk."""
        return size_of(self.folder)

    def programs(self, question):
        """How Xapian is asked a question, where it can be."""
        if not question.match:
            return {}
        query = xapian_query(question.match)
        return {f"{self.name}, counting": lambda: self._count(query)}

    def _count(self, query):
        """How many paragraphs match, and the seconds that it takes to count them."""
        start = time.perf_counter()
        enquire = xapian.Enquire(self.database)
        enquire.set_weighting_scheme(xapian.BoolWeight())
        enquire.set_query(self.parser.parse_query(query, self.flags))
        found = enquire.get_mset(0, 0, self.database.get_doccount()).get_matches_estimated()
        return found, time.perf_counter() - start


def xapian_query(match):
    """A query of FTS5's as Xapian has it: `NEAR(a b, 1)` is `a NEAR/2 b` there, and all else is the same."""
    near = re.fullmatch(r"NEAR\((\w+) (\w+), (\d+)\)", match)
    return f"{near[1]} NEAR/{int(near[3]) + 1} {near[2]}" if near else match
