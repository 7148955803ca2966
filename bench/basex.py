"""BaseX as a peer: its console over a pipe, and the databases in which it is asked."""

import fcntl
import os
import re
import shutil
import subprocess

import asking
import bars
import turns


class Console:
    """BaseX's console at the other end of a pipe, with a folder of its own for its databases."""

    def __init__(self, home):
        self.home = home
        environment = {**os.environ, "JAVA_ARGS": f"-Dorg.basex.path={home} -XX:+UseTransparentHugePages"}
        pipes = {"stdin": subprocess.PIPE, "stdout": subprocess.PIPE, "stderr": subprocess.STDOUT}
        self.child = subprocess.Popen(["basex", "-v"], bufsize=0, env=environment, **pipes)
        fcntl.fcntl(self.child.stdout, fcntl.F_SETPIPE_SZ, asking.PIPE_BYTES)
        self._reply()
        # Blanks between elements stay, as in ftq: without them a title's last word would be one with the first of what follows.
        self.run("SET CHOP false")

    def close(self):
        """Ends the program."""
        self.child.stdin.close()
        self.child.stdout.close()
        self.child.wait()

    def run(self, command):
        """What a command prints."""
        self.child.stdin.write(command.encode("utf-8") + b"\n")
        return self._reply()

    def timed(self, command):
        """The lines that a command prints, and the seconds that BaseX says it took."""
        reply = self.run(command)
        told = re.search(r"^(?:Query executed|Database '\w+' created) in ([\d.]+) ms\.\n", reply, re.MULTILINE)
        if not told:
            raise turns.Differ(f"BaseX answered {command[:200]}: {reply[-400:]}")
        return [line for line in reply[: told.start()].split("\n") if line], float(told[1]) / 1000

    def _reply(self):
        """What is printed up to the next prompt."""
        reply = bytearray()
        while not reply.endswith(b"\n> "):
            piece = os.read(self.child.stdout.fileno(), asking.PIPE_BYTES)
            if not piece:
                raise EOFError(f"BaseX ended with {self.child.wait()}")
            reply += piece
        return reply[:-2].decode("utf-8")


# The name of a database, how it is set up, and whether a question is put to it. With an index of stems questions are answered that use stemming; a
# thesaurus is looked at only without an index, with which the word alone is found.
DATABASES = [
    ("indexed", ["SET FTINDEX true"], lambda path: "using stemming" not in path and "using thesaurus" not in path),
    ("stems", ["SET STEMMING true", "SET LANGUAGE en"], lambda path: "using stemming" in path),
    ("scanned", ["SET STEMMING false", "SET FTINDEX false"], lambda path: "using thesaurus" in path),
]


class BaseX:
    """The documents of a folder in databases of BaseX's: how many elements a question finds, and the path of each of them, as ftq prints it."""

    name = bars.BASEX

    def __init__(self, home, documents, questions=(), synonyms=()):
        self.console = Console(home)
        self.documents = documents
        self.thesaurus = self._write_thesaurus(home, synonyms)
        self.opened = ""
        for name, settings, is_for in DATABASES:
            for setting in settings:
                self.console.run(setting)
            if any(is_for(question.path) for question in questions):
                self.console.timed(f"CREATE DB {name} {documents}")

    def close(self):
        """Ends the program."""
        self.console.close()

    def programs(self, question):
        """How BaseX is asked a question: it counts, and it prints."""
        query = question.path.replace("using stemming", 'using stemming using language "en"').replace('at "synonyms"', f'at "{self.thesaurus}"')
        database = next(name for name, _, is_for in DATABASES if is_for(question.path))
        return {f"{self.name}, counting": lambda: self._count(database, query), self.name: lambda: self._print(database, query)}

    def stems_of(self, words):
        """The words whose stem is another one, each with its stem, by BaseX's stemmer of English."""
        path = os.path.join(self.console.home, "words.txt")
        with open(path, "w", encoding="utf-8") as file:
            file.write("\n".join(words))
        options = 'map { "stemming": true(), "language": "en" }'
        query = f'for $word in tokenize(file:read-text("{path}"), "\\n") return $word || " " || ft:tokenize($word, {options})'
        pairs = [line.split(" ") for line in self.console.timed(f"XQUERY {query}")[0]]
        return [(word, stem) for word, stem in pairs if word != stem]

    def _count(self, database, query):
        lines, seconds = self._asked(database, f"count({query})")
        return int(lines[0]), seconds

    def _print(self, database, query):
        lines, seconds = self._asked(database, f"({query}) ! (db:path(.) || path(.))")
        return len(lines), seconds

    def _asked(self, database, query):
        if self.opened != database:
            self.console.run(f"OPEN {database}")
            self.opened = database
        return self.console.timed(f"XQUERY {query}")

    @staticmethod
    def _write_thesaurus(home, synonyms):
        """The path of a thesaurus in which each first word leads to the second as its synonym."""
        path = os.path.join(home, "thesaurus.xml")
        entries = (
            f"<entry><term>{term}</term><synonym><term>{other}</term><relationship>synonym</relationship></synonym></entry>" for term, other in synonyms
        )
        with open(path, "w", encoding="utf-8") as file:
            file.write(f'<thesaurus xmlns="http://www.w3.org/2007/xqftts/thesaurus">{"".join(entries)}</thesaurus>')
        return path


def is_installed():
    """Whether BaseX is there."""
    return shutil.which("basex") is not None


def index_seconds(console, documents):
    """The seconds that BaseX takes to load the documents of a folder and to index their words."""
    console.run("SET FTINDEX true")
    return console.timed(f"CREATE DB loaded {documents}")[1]
