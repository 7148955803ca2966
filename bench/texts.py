"""The texts of the benchmarks: made with a fixed seed, so that each run and each machine measures the same bytes."""

import random
import re

# Words of one to four syllables; the word of rank r is drawn with a weight of 1 / r.
SYLLABLES = "ba be bi bo ca ce co da de di do fa fi go ha he in ka la le lo ma me mi na ne no on pa pe ra re ri ro sa se si so ta te ti to un va vi".split()
VOCABULARY = 20_000
SEED = 20261127


class Words:
    """An endless run of words whose frequencies follow Zipf's law."""

    def __init__(self, seed):
        self.random = random.Random(seed)
        words, seen = [], set()
        while len(words) < VOCABULARY:
            word = "".join(self.random.choice(SYLLABLES) for _ in range(self.random.randint(1, 4)))
            if word not in seen:
                seen.add(word)
                words.append(word)
        self.words = words
        total, weights = 0.0, []
        for rank in range(1, VOCABULARY + 1):
            total += 1.0 / rank
            weights.append(total)
        self.weights = weights
        self.drawn = []
        self.next = 0

    def take(self, count):
        if len(self.drawn) - self.next < count:
            self.drawn = self.random.choices(self.words, cum_weights=self.weights, k=200_000)
            self.next = 0
        self.next += count
        return self.drawn[self.next - count : self.next]


def paragraph(words):
    """A paragraph of two to six sentences."""
    sentences = []
    for _ in range(words.random.randint(2, 6)):
        sentence = " ".join(words.take(words.random.randint(6, 18)))
        sentences.append(sentence[0].upper() + sentence[1:] + ".")
    return "<p>" + " ".join(sentences) + "</p>\n"


def section(words, number):
    parts = [f'<section id="s{number}"><title>{" ".join(words.take(3))}</title>\n']
    parts += [paragraph(words) for _ in range(words.random.randint(3, 6))]
    parts.append("</section>\n")
    return "".join(parts)


def chapter(words, number):
    parts = [f'<chapter n="{number}"><title>{" ".join(words.take(4))}</title>\n']
    parts += [section(words, k) for k in range(1, words.random.randint(2, 5))]
    parts.append("</chapter>\n")
    return "".join(parts)


def book(words, number):
    head = f'<?xml version="1.0" encoding="UTF-8"?>\n<book id="b{number}" lang="en">\n<title>{" ".join(words.take(5))}</title>\n'
    return head + "".join(chapter(words, k) for k in range(1, 4)) + "</book>\n"


def books(count, seed=SEED):
    """Books of about ten thousand bytes each."""
    words = Words(seed)
    return [book(words, number).encode("utf-8") for number in range(1, count + 1)]


def archive(bytes_wanted, seed=20261128):
    """One document of about so many bytes: chapters under one root."""
    words = Words(seed)
    parts, size, number = [], 0, 0
    while size < bytes_wanted:
        number += 1
        text = chapter(words, number)
        parts.append(text)
        size += len(text)
    return ("<archive>\n" + "".join(parts) + "</archive>").encode("utf-8")


def hollow(bytes_wanted):
    """One element with as many empty ones in it as so many bytes hold."""
    return b"<r>" + b"<a/>" * (bytes_wanted // 4 - 2) + b"</r>"


def paragraphs(bytes_wanted, seed=20261129):
    """One element with paragraphs of about 300 bytes each."""
    words = Words(seed)
    parts, size = [], 0
    while size < bytes_wanted:
        text = " ".join(words.take(60))[:292]
        parts.append(f"<p>{text}</p>\n")
        size += len(parts[-1])
    return ("<r>" + "".join(parts) + "</r>").encode("utf-8")


def noted(documents, seed=20261201):
    """Books with notes in their chapters, one behind the title and one behind each section: about ten of ten words for a book."""
    words = Words(seed)
    found = []
    for document in documents:
        parts = re.split(r"(?<=</section>\n)|(?<=</title>\n)(?=<section)", document.decode("ascii"))
        notes = [f"<note>{' '.join(words.take(10))} remark.</note>\n" for _ in parts[1:]]
        found.append("".join(text for pair in zip(parts, [*notes, ""]) for text in pair).encode("ascii"))
    return found


def levels(count, words_each):
    """One element in which others stand, so many levels deep; each has so many words of its own, and a hole with some more."""
    opened = "".join(f"<e>{'a b ' * (words_each // 2)}<h>x y</h>" for _ in range(count))
    return (opened + "</e>" * count).encode("ascii")
