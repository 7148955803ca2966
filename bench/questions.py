"""What is asked of the documents: the path of each question, and what it is for programs that index paragraphs alone."""

import dataclasses

import bars
import texts

WORDS = texts.Words(texts.SEED).words
"""The words of the documents, the most frequent first."""


@dataclasses.dataclass(frozen=True)
class Question:
    """A path behind `collection()`, which BaseX reads as it stands; the bar that it counts for; and what FTS5 and Xapian match, where paragraphs are
    asked for in a way that they have. Some are asked by `--quick` too."""

    what: str
    path: str
    bar: str
    match: str | None = None
    quick: bool = False


def paragraphs(what, selection, bar, match=None, quick=False):
    """A question for paragraphs with a selection."""
    return Question(what, f"//p[. contains text {selection}]", bar, match, quick)


def joined(words, operator):
    """A selection of words, and the same for FTS5."""
    return f" {operator} ".join(f'"{word}"' for word in words), {"ftor": " OR ", "ftand": " AND "}[operator].join(words)


SYNONYMS = [("rido", "ba")]
"""To what the words of the thesaurus lead."""

QUESTIONS = [
    paragraphs("paragraphs with a frequent word", '"lesadi"', bars.WORDS, "lesadi", quick=True),
    paragraphs("paragraphs with a rare word", '"ba"', bars.RARE_WORDS, "ba", quick=True),
    paragraphs("paragraphs with a word of six documents", '"vahene"', bars.RARE_WORDS, "vahene", quick=True),
    paragraphs("paragraphs with an absent word", '"xyzzy"', bars.RARE_WORDS, "xyzzy", quick=True),
    paragraphs("with a word and without another", '"ba" ftand ftnot "so"', bars.WORDS, "ba NOT so"),
    paragraphs("with two words", '"ba" ftand "rido"', bars.WORDS, "ba AND rido"),
    paragraphs("with two frequent words", '"lesadi" ftand "so"', bars.WORDS, "lesadi AND so"),
    paragraphs("with one of two words", '"ba" ftor "rido"', bars.WORDS, "ba OR rido", quick=True),
    paragraphs("with a phrase", '"lesadi so"', bars.WORDS, '"lesadi so"', quick=True),
    paragraphs("with a word twice", '"so" occurs at least 2 times', bars.WORDS),
    paragraphs("with a word by its beginning", '"lesad.*" using wildcards', bars.WORDS, "lesad*"),
    paragraphs("with words by two letters", '"le.*" using wildcards', bars.MANY_WORDS, "le*", quick=True),
    paragraphs("with words by one letter", '"l.*" using wildcards', bars.MANY_WORDS, "l*"),
    paragraphs("with one of 64 words", joined(WORDS[100:164], "ftor")[0], bars.MANY_WORDS, joined(WORDS[100:164], "ftor")[1], quick=True),
    paragraphs("with 16 words", joined(WORDS[:16], "ftand")[0], bars.MANY_WORDS, joined(WORDS[:16], "ftand")[1]),
    paragraphs("with a rare word by its stem", '"va" using stemming', bars.WORDS),
    paragraphs("with a frequent word by its stem", '"lesadi" using stemming', bars.WORDS),
    paragraphs("with a word or a synonym", '"rido" using thesaurus at "synonyms"', bars.WORDS),
    Question("titles with a rare word", '//title[. contains text "ba"]', bars.RARE_WORDS, quick=True),
    Question("titles with a frequent word", '//title[. contains text "lesadi"]', bars.WORDS),
    Question("sections with a word", '//section[. contains text "ba"]', bars.WORDS),
    paragraphs("with two words in a window of two", '"lesadi" ftand "so" window 2 words', bars.PLACES, "NEAR(lesadi so, 0)"),
    paragraphs("with two words in a window of three", '"lesadi" ftand "so" window 3 words', bars.PLACES, "NEAR(lesadi so, 1)", quick=True),
    paragraphs("with a word and another not in its window", '"lesadi" ftand ftnot "so" window 3 words', bars.PLACES),
    paragraphs("with two words at most three words apart", '"lesadi" ftand "so" distance at most 3 words', bars.PLACES, "NEAR(lesadi so, 3)"),
    paragraphs("with four words at most ten words apart", f'{joined(WORDS[:4], "ftand")[0]} distance at most 10 words', bars.MANY_WORDS),
    paragraphs("with two words in order", '"lesadi" ftand "so" ordered', bars.PLACES),
    paragraphs("with two words in one sentence", '"lesadi" ftand "so" same sentence', bars.PLACES, quick=True),
    paragraphs("with two words in one paragraph", '"lesadi" ftand "so" same paragraph', bars.PLACES),
    paragraphs("that begin with a word", '"lesadi" at start', bars.PLACES),
    paragraphs("with a word outside a phrase", '"so" not in "lesadi so"', bars.PLACES),
    Question("elements by name, place and attribute", '//section[3][@id = "s3"]/p[2]', bars.NAMES, quick=True),
    Question("elements by the names from the root", "/book/chapter[2]/title", bars.NAMES),
    Question("elements by what stands below them", "//chapter[section[4]/p[6] or not(section[3])]", bars.NAMES),
    Question("elements at any depth below others", "//chapter//title", bars.NAMES),
    Question("all elements", "//*", bars.NAMES_ALONE),
    Question("all paragraphs", "//p", bars.NAMES_ALONE, quick=True),
    Question("elements of an absent name", "//nosuch", bars.NAMES_ALONE, quick=True),
    Question("titles of chapters with a word", '/book/chapter[section/p contains text "ba"]/title', bars.WORDS),
]
