"""What Tab offers at the prompt."""

from __future__ import annotations

import pytest

for module in ("lxml", "prompt_toolkit"):
    pytest.importorskip(module)

from ftq_ask.collection import Collection  # noqa: E402
from ftq_ask.completing import BEHIND_A_FILTER, BEHIND_A_STRING, BEHIND_TIMES, TIMES, UNITS, PathCompleter  # noqa: E402
from ftq_client import Session  # noqa: E402
from prompt_toolkit.completion import CompleteEvent  # noqa: E402
from prompt_toolkit.document import Document  # noqa: E402

COUNTED = 'query collection()//p[. contains text "storm" '


@pytest.mark.parametrize(
    ("typed", "offered"),
    [
        ("wat", ["watch "]),
        ("cha", ["changes "]),
        ("sho", ["show "]),
        ("show ", ["collection()", 'doc("']),
        ('show collection()//p[. contains text "storm" ', BEHIND_A_STRING),
        ("watch w ", ["collection()", 'doc("']),
        ('watch "w w" col', ["collection()"]),
        (COUNTED, BEHIND_A_STRING),
        (COUNTED + "occurs ", TIMES),
        (COUNTED + "occurs at least 2 ", ["times "]),
        (COUNTED + "occurs from 1 to 2 ti", ["times "]),
        (COUNTED + "occurs at least 2 times ", BEHIND_TIMES),
        (COUNTED + "occurs at least 2 times same p", ["same paragraph"]),
        (COUNTED + "occurs at least 2 times window 20 ", UNITS),
        (COUNTED + 'occurs at least 2 times ftand "sea" ', BEHIND_A_STRING),
        (COUNTED + 'occurs at least 2 times] and . contains ', ["text "]),
        (COUNTED + "with", ["without content "]),
        (COUNTED + 'ftand "sea" same sentence ', BEHIND_A_FILTER),
        (COUNTED + "window 3 words wi", ["window ", "without content "]),
        (COUNTED + "without ", ["content "]),
        (COUNTED + "without content ", ["note", "p", ".//"]),
        (COUNTED + "without content n", ["note"]),
        (COUNTED + "without content .//n", ["note"]),
        (COUNTED + "without content note ", ["| ", "and ", "or "]),
        (COUNTED + "without content note | .", [".//"]),
        (COUNTED + "without content note | p", []),
    ],
)
def test_what_is_offered(session: Session, typed: str, offered: list[str]) -> None:
    collection = Collection(session)
    collection.command("load d", b"<p><note/></p>")
    completer = PathCompleter(collection)
    assert [it.text for it in completer.get_completions(Document(typed), CompleteEvent())] == offered
