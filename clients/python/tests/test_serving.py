"""ask serve: the pages and the JSON interface, as they go over the wire, against the real program."""

from __future__ import annotations

import http.client
import json
import os
import signal
import socket
import subprocess
import sys
import time
from pathlib import Path
from typing import Any, Iterator
from urllib.parse import parse_qs, urlsplit

import pytest

for module in ("lxml", "rich", "starlette", "uvicorn", "jinja2"):
    pytest.importorskip(module)

from lxml import html  # noqa: E402

from conftest import TOP  # noqa: E402
from serving import LONG, LONG_DOCUMENT, Server, served  # noqa: E402

STORM = 'collection()//p[. contains text "storm"]'


@pytest.fixture(scope="module")
def library(tmp_path_factory: pytest.TempPathFactory) -> Path:
    """A folder with a plain document, one with mixed contents, and one that a question can be long about."""
    top = tmp_path_factory.mktemp("served")
    (top / "voyages.xml").write_text(
        '<book id="b1"><title>Sea Voyages</title>\n<chapter><title>The Storm</title>\n<p>A heavy storm struck the <i>ship</i> at night.</p>\n'
        "<p>No <b>storm <i>storm</i></b> was seen.</p></chapter></book>"
    )
    (top / "garden.xml").write_text("<book><p>Water the roses before the storm.</p><code n='1'/></book>")
    (top / "long.xml").write_text(LONG_DOCUMENT)
    return top


@pytest.fixture(scope="module")
def server(program: Path, library: Path) -> Iterator[Server]:
    with served(program, library) as it:
        it.comes_to(idle=2)
        yield it


def page_of(server: Server, path: str, **values: Any) -> html.HtmlElement:
    answered = server.get(path, **values)
    assert answered.status == 200 and answered.headers["content-type"].startswith("text/html")
    return html.document_fromstring(answered.text)



def found(page: html.HtmlElement, path: str) -> list[str]:
    """The texts of the elements of a page that an XPath leads to."""
    return [" ".join(it.text_content().split()) for it in page.xpath(path)]


def test_a_page_shows_elements_in_reading_order_with_marks(server: Server, library: Path) -> None:
    page = page_of(server, "/", q=STORM)
    assert found(page, "//li[@class='hit']/a") == [f"{library}/garden.xml:1", f"{library}/voyages.xml:3", f"{library}/voyages.xml:4"]
    assert found(page, "//li[@class='hit']/code")[1] == 'doc("voyages.xml")/book[1]/chapter[1]/p[1]'
    assert found(page, "//li[@class='hit']/p")[1] == "A heavy storm struck the ship at night."
    assert found(page, "//li[@class='hit']//mark") == ["storm"] * 3
    assert found(page, "//h1") == ["3 elements"]
    assert page.xpath("//textarea")[0].text.strip() == STORM


def test_the_first_page_has_questions_that_find_something(program: Path, tmp_path: Path) -> None:
    words = "The harbour was crowded with merchants, sailors and their luggage before sunrise"
    (tmp_path / "a.xml").write_text(f"<d><p>Oh</p><p>{words}</p></d>")
    with served(program, tmp_path) as server:
        asked = found(page_of(server, "/"), "//section[@class='begin']//li")
        assert len(asked) == 4 and asked[1] == 'collection()//p[. contains text "harbour was"]'
        assert [found(page_of(server, "/", q=it), "//h1") for it in asked] == [["1 element"]] * 4
    (tmp_path / "a.xml").write_text("<d><p>Oh</p></d>")
    with served(program, tmp_path) as server:
        assert found(page_of(server, "/"), "//section[@class='begin']//li")[0] == 'collection()//p[. contains text "storm"]'


def test_filters_have_counts_and_lead_to_what_they_count(server: Server) -> None:
    question = 'collection()//*[. contains text "storm"]'
    page = page_of(server, "/", q=question)
    counts = dict(zip(found(page, "//aside//*[@class='name']"), found(page, "//aside//*[@class='count']")))
    assert counts == {"p": "3", "book": "2", "title": "1", "chapter": "1", "b": "1", "i": "1", "voyages.xml": "7", "garden.xml": "2"}
    for link in page.xpath("//aside//a"):
        told = page_of(server, link.get("href"))
        name, count = found(link, "*")
        assert found(told, "//h1")[0] == f"{count} element{'' if count == '1' else 's'} of 9"
        assert len(told.xpath("//li[@class='hit']")) == int(count)
    both = page_of(server, "/", q=question, element="p", document="voyages.xml")
    assert found(both, "//h1") == ["2 elements of 9"]
    assert dict(zip(found(both, "//aside//*[@class='name']"), found(both, "//aside//*[@class='count']")))["p"] == "2"
    assert found(page_of(server, "/", q=question, element="p", document="voyages"), "//h1") == ["2 elements of 9"]
    assert {urlsplit(it.get("href")).query for it in both.xpath("//p[@class='filtered']/a")} != set()


def test_every_address_keeps_the_question(server: Server) -> None:
    for path, values in (("/", {"limit": 1, "from": 2}), ("/document", {"name": "voyages.xml"})):
        page = page_of(server, path, q=STORM, **values)
        links = [it for it in page.xpath("//main//a") if it.get("href")]
        assert len(links) >= 3
        for link in links:
            assert parse_qs(urlsplit(link.get("href")).query)["q"] == [STORM]


def test_pages_of_an_answer_lead_on_and_back(server: Server) -> None:
    first = page_of(server, "/", q=STORM, limit=2)
    assert [it.get("id") for it in first.xpath("//li[@class='hit']")] == ["hit-1", "hit-2"]
    second = page_of(server, first.xpath("//a[@id='on']")[0].get("href"))
    assert [it.get("id") for it in second.xpath("//li[@class='hit']")] == ["hit-3"] and not second.xpath("//a[@id='on']")
    back = page_of(server, second.xpath("//a[@id='back']")[0].get("href"))
    assert found(back, "//li[@class='hit']/code") == found(first, "//li[@class='hit']/code")


def test_a_refused_question_shows_its_place_and_what_to_write(server: Server, program: Path, library: Path) -> None:
    wrong = 'collection()//p[. contains text "storm" and "ship"]'
    page = page_of(server, "/", q=wrong)
    (shown,) = page.xpath("//pre[@class='caret']")
    question, caret = shown.text_content().rstrip("\n").split("\n")[:2]
    ran = subprocess.run([TOP / "tools" / "ask", library, "--program", program, "--query", wrong], capture_output=True, text=True, timeout=60)
    said, asked, under, why, write = [it.removeprefix("    ") for it in ran.stderr.splitlines()]
    assert question == asked == wrong
    assert caret.replace(wrong[: caret.index("^")], " " * caret.index("^")) == under
    assert found(page, "//section[@id='fault']/h2")[0] == said.removeprefix("ask: ")
    assert found(page, "//p[@class='why']") == [why]
    (repair,) = page.xpath("//a[@id='repair']")
    assert repair.text == write and parse_qs(urlsplit(repair.get("href")).query)["q"] == [write]
    last = server.lines(wrong)[-1]
    assert (last["part"], last["column"], last["write"], f"{last['why']}; write:") == ("refused", under.index("^"), write, why)


def test_hints_stand_beside_an_answer_of_nothing(server: Server) -> None:
    question = 'collection()//para[. contains text "storms"]'
    hints = server.lines(question)[-1]["hints"]
    assert hints[0] == "no document has an element para" and "close to it there is storm" in hints[1]
    assert found(page_of(server, "/", q=question), "//section[@id='hints']//li") == hints


def test_a_document_has_all_marks_and_a_list_of_what_was_found(server: Server, library: Path) -> None:
    page = page_of(server, "/document", name="voyages.xml", q='collection()//*[. contains text "storm"]', element="p")
    assert found(page, "//article/h1") == [f"{library}/voyages.xml"]
    assert found(page, "//ol[@class='listed']//a/code") == ["p", "p"]
    assert [it.get("id") for it in page.xpath("//div[contains(@class, 'begins')]")] == ["hit-1", "hit-2"]
    assert found(page, "//article//mark") == ["storm", "storm"]
    blocks = [found(it, "p") for it in page.xpath("//article//div[contains(@class, 'block')]") if it.xpath("p")]
    assert blocks == [["Sea Voyages"], ["The Storm"], ["A heavy storm struck the ship at night."], ["No storm storm was seen."]]
    inner = page_of(server, "/document", name="voyages.xml", q='collection()//b//*[. contains text "storm"]')
    assert [(it.get("id"), it.text_content()) for it in inner.xpath("//span[@class='found']")] == [("hit-1", "storm")]
    assert found(page_of(server, "/document", name="garden"), "//article//mark") == []


def test_a_long_document_comes_in_sheets(program: Path, tmp_path: Path) -> None:
    (tmp_path / "many.xml").write_text("<r>" + "".join(f"<p>word {number}</p>" for number in range(1_000)) + "</r>")
    with served(program, tmp_path) as it:
        question = 'collection()//p[. contains text "word 900"]'
        link = page_of(it, "/", q=question).xpath("//li[@class='hit']/a")[0].get("href")
        page = page_of(it, link)
        assert found(page, "//div[@id='hit-1']/p") == ["word 900"] and found(page, "//nav/span")[0] == "part 3 of 3"
        seen = [text for sheet in (1, 2, 3) for text in found(page_of(it, "/document", name="many.xml", sheet=sheet), "//article//div/p")]
        assert seen == [f"word {number}" for number in range(1_000)]


def test_answers_come_part_by_part(server: Server) -> None:
    with socket.create_connection(("127.0.0.1", server.port), timeout=30) as wire:
        wire.sendall(f"GET /api/query?q=collection()//p HTTP/1.1\r\nHost: 127.0.0.1:{server.port}\r\n\r\n".encode())
        data = b""
        while not data.endswith(b"0\r\n\r\n"):
            data += wire.recv(65_536)
    chunks = data.partition(b"\r\n\r\n")[2].split(b"\r\n")[1::2]
    parts = [json.loads(it)["part"] for it in chunks if it]
    assert parts == ["begin", "count", "element", "element", "element", "end"]


def test_the_first_part_of_an_answer_is_there_before_the_program_has_answered(server: Server) -> None:
    programs = server.comes_to(idle=2) and server.children()
    for program in programs:
        os.kill(program, signal.SIGSTOP)
    try:
        connection, response, name = server.begun('collection()//p[. contains text "roses"]')
        page = http.client.HTTPConnection("127.0.0.1", server.port, timeout=30)
        page.request("GET", "/?q=collection()//p")
        told = page.getresponse()
        top = b""
        while b"<main>" not in top:
            top += told.read1()
        assert len(name) == 16 and b'id="stop"' in top and b"Stopping it leaves the collection" in top and b'class="hit"' not in top
    finally:
        for program in programs:
            os.kill(program, signal.SIGCONT)
    assert b'"part":"end"' in response.read() and b'class="hit"' in told.read()
    connection.close()
    page.close()


def test_a_question_is_stopped_and_others_are_answered_meanwhile(server: Server) -> None:
    server.comes_to(idle=2)
    before = server.status()["stopped"]
    connection, response, name = server.begun(LONG)
    server.comes_to(asked=1, idle=1)
    start = time.monotonic()
    assert server.lines(STORM)[1]["count"] == 3
    assert time.monotonic() - start < 5
    assert json.loads(server.post("/api/stop", {"id": name}).body) == {"stopped": True}
    start = time.monotonic()
    last = json.loads(response.read().splitlines()[-1])
    assert last == {"part": "over", "said": "the question was stopped", "stopped": True} and time.monotonic() - start < 5
    connection.close()
    assert server.lines(STORM)[1]["count"] == 3
    assert server.comes_to(idle=2, asked=0)["stopped"] == before + 1
    assert json.loads(server.post("/api/stop", {"id": name}).body) == {"stopped": False}


def test_both_programs_may_be_stopped_and_the_collection_is_still_there(server: Server) -> None:
    server.comes_to(idle=2)
    begun = [server.begun(LONG) for _ in range(2)]
    server.comes_to(asked=2, idle=0)
    for _, _, name in begun:
        server.post("/api/stop", {"id": name})
    assert server.lines(STORM)[1]["count"] == 3
    for connection, response, _ in begun:
        assert json.loads(response.read().splitlines()[-1])["stopped"]
        connection.close()
    server.comes_to(idle=2)


def test_the_form_stops_a_question_too(server: Server) -> None:
    server.comes_to(idle=2)
    connection, response, name = server.begun(LONG)
    own = {"Content-Type": "application/x-www-form-urlencoded", "Origin": "null", "Sec-Fetch-Site": "same-origin"}
    assert "was stopped" in server.get("/stop", own, "POST", f"id={name}".encode()).text
    assert json.loads(response.read().splitlines()[-1])["stopped"]
    connection.close()


def test_a_question_that_nobody_waits_for_is_given_up(server: Server) -> None:
    server.comes_to(idle=2)
    connection, response, _ = server.begun(LONG)
    server.comes_to(asked=1)
    response.close()
    connection.close()
    server.comes_to(asked=0, idle=2)


def test_a_question_has_its_time(program: Path, library: Path) -> None:
    with served(program, library, "--timeout", 1, "--programs", 1) as it:
        last = it.lines(LONG)[-1]
        assert last == {"part": "over", "said": "no reply within 1 s", "stopped": True}
        assert it.lines(STORM)[1]["count"] == 3


def test_several_programs_that_divide_the_documents_are_served_too(program: Path, library: Path) -> None:
    with served(program, library, "--workers", 2) as it:
        assert [row["document"] for row in it.lines(STORM)[2:-1]] == ["garden.xml", "voyages.xml", "voyages.xml"]
        connection, response, name = it.begun(LONG)
        it.comes_to(asked=1)
        it.post("/api/stop", {"id": name})
        assert json.loads(response.read().splitlines()[-1])["stopped"]
        connection.close()
        assert it.lines(STORM)[1]["count"] == 3


def test_abbreviations_are_those_of_the_call_also_after_a_change(program: Path, tmp_path: Path) -> None:
    question = 'collection()/p[. contains text "dr" ftand "hill" same sentence]'
    (tmp_path / "one.xml").write_text("<p>Dr. Hill ran</p>")
    for more in ([], ["--workers", 2]):
        with served(program, tmp_path, "--abbreviations", "en", *more) as it:
            assert it.lines(question)[1]["count"] == 1
            (tmp_path / "two.xml").write_text("<p>Is Dr. Hill here?</p>")
            assert it.lines(question)[1]["count"] == 2
            it.comes_to(idle=2)
            for number in it.children():
                os.kill(number, signal.SIGKILL)
            counts = [[row["count"] for row in it.lines(question, as_typed=number % 2) if row["part"] == "count"] for number in range(6)]
            assert counts[-1] == [2]
            (tmp_path / "two.xml").unlink()
    (tmp_path / "bad").write_text("e. g.")
    words = [TOP / "tools" / "ask", "serve", tmp_path, "--program", program, "--port", "0", "--abbreviations", tmp_path / "bad"]
    ran = subprocess.run(words, capture_output=True, text=True, timeout=60)
    assert ran.returncode == 2 and f"{tmp_path}/bad:1: a list of abbreviations has one word in each line" in ran.stderr


def test_it_ends_at_an_interrupt_also_while_a_question_is_asked(program: Path, library: Path) -> None:
    it = Server(program, library)
    connection, _, _ = it.begun(LONG)
    start, programs = time.monotonic(), it.children()
    assert it.close() == 0 and time.monotonic() - start < 10
    connection.close()
    assert programs and not any(Path(f"/proc/{number}").exists() for number in programs)


def test_a_port_that_is_taken_is_told(program: Path, library: Path, server: Server) -> None:
    words = [TOP / "tools" / "ask", "serve", library, "--program", program, "--port", str(server.port)]
    ran = subprocess.run(words, capture_output=True, text=True, timeout=60)
    assert ran.returncode == 2 and f"the port {server.port} can't be had" in ran.stderr and "--port 0" in ran.stderr


@pytest.mark.parametrize("module", ["starlette", "uvicorn", "jinja2"])
def test_what_is_missing_is_named(module: str, library: Path) -> None:
    code = f"import sys; sys.path.insert(0, {str(TOP / 'clients/python/src')!r}); sys.modules[{module!r}] = None\n"
    code += f"sys.argv = ['ask', 'serve', {str(library)!r}]\n"
    code += "from ftq_ask.needs import run; sys.exit(run('ftq_ask.commands'))"
    ran = subprocess.run([sys.executable, "-c", code], capture_output=True, text=True, timeout=60)
    assert ran.returncode == 2 and "Traceback" not in ran.stderr
    if sys.prefix == sys.base_prefix:
        assert f"python3-{module} is not installed" in ran.stderr
        assert ran.stderr.endswith("apt-get install python3-starlette python3-uvicorn python3-jinja2\n")
