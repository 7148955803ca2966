"""What ask serve lets in, and what goes out: foreign hosts and sites, methods, sizes, hostile texts."""

from __future__ import annotations

import contextlib
import json
import socket
import time
from pathlib import Path
from typing import Iterator

import pytest

for module in ("lxml", "rich", "starlette", "uvicorn", "jinja2"):
    pytest.importorskip(module)

from lxml import html  # noqa: E402

from ftq_ask.serving.desk import MOST_QUESTIONS  # noqa: E402
from ftq_ask.serving.guard import MOST_REQUESTS  # noqa: E402
from serving import LONG, LONG_DOCUMENT, Server, served  # noqa: E402

SCRIPT = "<script>alert(1)</script>"
HOSTILE = [SCRIPT, "\"><img src=x onerror=alert(1)>", "' onmouseover='alert(1)", "</textarea><svg onload=alert(1)>"]
HOSTILE += ["{{ 7*7 }}{% raw %}", "javascript:alert(1)", "&lt;b&gt;"]


@pytest.fixture(scope="module")
def folder(tmp_path_factory: pytest.TempPathFactory) -> Path:
    """A folder of documents whose texts, attributes, names and files are what a page mustn't take for markup."""
    top = tmp_path_factory.mktemp("hostile")
    texts = "".join(f"<p t={attribute(it)}>storm {it.replace('&', '&amp;').replace('<', '&lt;')}</p>" for it in HOSTILE)
    named = "<script>storm alert(1)</script><img>storm</img><onload>storm</onload>"
    (top / "texts.xml").write_text(f"<r>{texts}<empty a={attribute(SCRIPT)}/>{named}</r>")
    (top / "<script>alert(2)<").mkdir()
    (top / "<script>alert(2)<" / "script>.xml").write_text("<r><p>storm in a file</p></r>")
    (top / '"><img src=x onerror=alert(3)>.xml').write_text("<r><p>storm in another</p></r>")
    (top / "faulty <svg onload=alert(4)>.xml").write_text("<r>")
    (top / "long.xml").write_text(LONG_DOCUMENT)
    return top


def attribute(text: str) -> str:
    return '"' + text.replace("&", "&amp;").replace("<", "&lt;").replace('"', "&quot;") + '"'


@pytest.fixture(scope="module")
def server(program: Path, folder: Path) -> Iterator[Server]:
    with served(program, folder, "--timeout", 50) as it:
        it.comes_to(idle=2)
        yield it


ALLOWED = set(
    "html head meta title link body header a form label textarea input button p span main aside section h1 h2 ul ol li code mark small pre"
    " details summary nav article div output dialog table tbody tr th td kbd".split()
)
LINKS = ("/?", "/document?", "/page.", "/icon.svg")


def harmless(text: str) -> html.HtmlElement:
    """A page that has its own elements alone, one script, which is a file of ours, and no attribute that does anything or leads elsewhere."""
    page = html.document_fromstring(text)
    scripts = page.xpath("//script")
    assert [(it.get("src"), it.text) for it in scripts] == [("/page.js", None)]
    for element in page.iter(html.etree.Element):
        assert element.tag in ALLOWED or element in scripts, element.tag
        for name, value in element.attrib.items():
            assert not name.startswith("on") and name != "style", (element.tag, name)
            if name in ("href", "src", "action"):
                assert value == "/" or value == "/stop" or value.startswith(LINKS), value
    return page


def shown(page: html.HtmlElement) -> str:
    return str(page.text_content())


@pytest.mark.parametrize("text", HOSTILE)
def test_a_question_is_no_markup(server: Server, text: str) -> None:
    for question in (text, f'collection()//p[. contains text "{text.replace(chr(34), chr(34) * 2)}"]', f"collection()//{text}"):
        page = harmless(server.get("/", q=question).text)
        assert page.xpath("//textarea")[0].text_content().strip() == question
        assert page.xpath("//title")[0].text_content() == question
        harmless(server.get("/document", name="texts.xml", q=question).text)


@pytest.mark.parametrize("text", HOSTILE)
def test_no_other_value_of_an_address_is_markup(server: Server, text: str) -> None:
    question = "collection()//p"
    page = harmless(server.get("/", q=question, document=text, element=text).text)
    assert shown(page.xpath("//p[@class='filtered']")[0]).count(text) == 2
    assert "there is no such document" in shown(harmless(server.get("/document", name=text, q=question).text))
    for values in ({"limit": text}, {"from": text}, {text: "1"}):
        refused = server.get("/", q=question, **values)
        assert refused.status == 400 and refused.headers["content-type"].startswith("text/plain")


def test_texts_attributes_names_and_files_are_no_markup(server: Server, folder: Path) -> None:
    page = harmless(server.get("/", q="collection()//*", limit=1000).text)
    files = [f"{folder}/<script>alert(2)</script>.xml:1", f'{folder}/"><img src=x onerror=alert(3)>.xml:1']
    for text in (*HOSTILE, f'@a="{SCRIPT}"', "storm alert(1)", *files):
        assert text in shown(page)
    assert {"script", "img", "onload"} <= {it.text_content() for it in page.xpath("//aside//*[@class='name']")}
    assert f"{folder}/faulty <svg onload=alert(4)>.xml:1" in shown(harmless(server.get("/").text))
    for name, file in [(it["name"], it["file"]) for it in json.loads(server.get("/api/files").body)["documents"]]:
        for question in ("", "collection()//*", 'collection()//*[. contains text "storm alert script"  any word]'):
            told = harmless(server.get("/document", name=name, q=question).text)
            assert told.xpath("//article/h1")[0].text_content() == file
            if name == "texts.xml":
                assert all(it in shown(told) for it in HOSTILE) and "script" in [it.text for it in told.xpath("//span[@class='tag']")]


def test_lines_of_json_are_no_markup_to_a_browser(server: Server) -> None:
    answered = server.get("/api/query", q="collection()//*")
    assert answered.headers["content-type"] == "application/x-ndjson" and answered.headers["x-content-type-options"] == "nosniff"
    assert SCRIPT in "".join(piece["text"] for row in answered.lines() if row["part"] == "element" for piece in row["text"])
    refused = server.get(f"/api/{SCRIPT}")
    assert refused.status == 404 and refused.headers["content-type"] == "application/json" and SCRIPT not in refused.text


EVERYWHERE = ["/", "/?q=collection()//p", "/?q=%5B", "/document?name=texts.xml", "/page.css", "/page.js", "/icon.svg", "/absent"]
EVERYWHERE += ["/api/query?q=collection()//p", "/api/status", "/api/absent", "/api/query", "/?limit=x"]


@pytest.mark.parametrize("path", EVERYWHERE)
def test_every_answer_says_what_a_browser_may_do(server: Server, path: str) -> None:
    headers = server.get(path).headers
    policy = dict(it.strip().partition(" ")[::2] for it in headers["content-security-policy"].split(";"))
    assert policy["default-src"] == "'none'" and policy["script-src"] == policy["style-src"] == "'self'" and policy["frame-ancestors"] == "'none'"
    assert "unsafe" not in headers["content-security-policy"] and "*" not in headers["content-security-policy"]
    assert (headers["x-content-type-options"], headers["referrer-policy"], headers["x-frame-options"]) == ("nosniff", "no-referrer", "DENY")
    assert headers["cross-origin-resource-policy"] == "same-origin" and "access-control-allow-origin" not in headers and "server" not in headers


def test_pages_load_nothing_from_elsewhere(server: Server) -> None:
    for name in ("page.css", "page.js", "icon.svg"):
        text = server.get(f"/{name}").text.replace("http://www.w3.org/2000/svg", "")
        assert not any(it in text.replace("// ", "") for it in ("http:", "https:", "//", "@import", "url("))
    script = server.get("/page.js").text
    assert not any(it in script for it in ("innerHTML", "outerHTML", "insertAdjacentHTML", "document.write", "eval(", "Function("))


HOSTS = ["evil.example", "evil.example:{port}", "127.0.0.1", "127.0.0.1:1", "localhost.evil:{port}", "127.0.0.1:{port}.evil", "0.0.0.0:{port}", ""]


@pytest.mark.parametrize("host", HOSTS)
def test_a_foreign_host_is_refused(server: Server, host: str) -> None:
    for path in ("/", "/api/status", "/page.js"):
        answered = server.get(path, {"Host": host.format(port=server.port)})
        assert answered.status == 421 and "documents" not in answered.text


def test_own_hosts_are_let_in(server: Server) -> None:
    for host in ("127.0.0.1", "localhost", "[::1]"):
        assert server.get("/api/status", {"Host": f"{host}:{server.port}"}).status == 200
    assert server.get("/api/status", {"Host": "x", "X-Forwarded-Host": f"127.0.0.1:{server.port}"}).status == 421


FOREIGN = [{"Sec-Fetch-Site": "cross-site"}, {"Sec-Fetch-Site": "same-site"}, {"Origin": "http://evil.example"}, {"Origin": "null"}]
FOREIGN += [{"Origin": "http://localhost:{port}"}, {"Origin": "https://127.0.0.1:{port}"}, {"Sec-Fetch-Site": ""}]
FOREIGN += [{"Origin": "null", "Sec-Fetch-Site": "cross-site"}]


@pytest.mark.parametrize("headers", FOREIGN, ids=str)
def test_another_sites_page_is_refused(server: Server, headers: dict[str, str]) -> None:
    told = {name: value.format(port=server.port) for name, value in headers.items()}
    assert server.get("/", told).status == server.get("/api/query", told, q="collection()//p").status == 403
    assert server.post("/api/stop", {"id": "x"}, told).status == server.post("/api/query", {"q": "collection()//p"}, told).status == 403


def test_own_pages_are_let_in(server: Server) -> None:
    for told in ({"Sec-Fetch-Site": "same-origin"}, {"Sec-Fetch-Site": "none"}, {"Origin": f"http://127.0.0.1:{server.port}"}):
        assert server.get("/api/status", told).status == 200
    assert server.post("/api/stop", {"id": "x"}, {"Sec-Fetch-Site": "none"}).status == 403
    assert server.post("/api/stop", {"id": "x"}, {"Sec-Fetch-Site": "same-origin", "Origin": f"http://127.0.0.1:{server.port}"}).status == 200


@pytest.mark.parametrize("method", ["HEAD", "PUT", "DELETE", "OPTIONS", "PATCH", "TRACE", "CONNECT"])
def test_there_are_get_and_post(server: Server, method: str) -> None:
    answered = server.get("/api/status", method=method)
    assert answered.status == 405 and answered.headers["allow"] == "GET, POST" and "access-control-allow-methods" not in answered.headers


def test_a_form_of_another_site_cant_send_json(server: Server) -> None:
    for media in ("text/plain", "application/x-www-form-urlencoded", "multipart/form-data", ""):
        assert server.get("/api/query", {"Content-Type": media}, "POST", b'{"q": "collection()//p"}').status == 415
    assert server.get("/api/status", {"Content-Type": "application/json"}, "POST", b"{}").status == 405
    assert server.get("/stop", {"Content-Type": "text/plain"}, "POST", b"id=x").status == 415


def test_sizes_are_limited(server: Server) -> None:
    assert server.get("/?q=" + "x" * 20_000).status in (400, 414)
    assert server.get("/?q=" + "x" * 16_382).status == 414
    assert server.get("/?q=" + "x" * 16_381).status == 200
    assert server.post("/api/query", {"q": "x" * 140_000}).status == 413
    assert server.post("/api/query", {"q": "x" * 66_000}).status == 413
    assert server.get("/api/query", {"Content-Type": "application/json", "Content-Length": "9999999999"}, "POST", b"").status == 413
    assert server.get("/api/query", {"Content-Type": "application/json"}, "POST", b"[" * 100_000).status == 400
    long = 'collection()//p[. contains text "' + "storm " * 10_000 + '"]'
    assert server.post("/api/query", {"q": long}).lines()[-1]["part"] == "end"
    with socket.create_connection(("127.0.0.1", server.port), timeout=30) as wire:
        head = f"POST /api/query HTTP/1.1\r\nHost: 127.0.0.1:{server.port}\r\nContent-Type: application/json\r\nTransfer-Encoding: chunked\r\n\r\n"
        wire.sendall(head.encode())
        with contextlib.suppress(OSError):
            for _ in range(40):
                wire.sendall(b"2000\r\n" + b" " * 0x2000 + b"\r\n")
            wire.sendall(b"0\r\n\r\n")
        assert wire.recv(100).startswith(b"HTTP/1.1 413")


MEANINGLESS = ["q=a&q=b", "q=%00", "q=%ff", "q=a%08b", "limit=-1", "limit=1001", "from=0", "from=1e3", "whole=2", "name=x", "q=" + "&a=1" * 30]


@pytest.mark.parametrize("address", MEANINGLESS)
def test_what_has_no_meaning_is_refused(server: Server, address: str) -> None:
    assert server.get(f"/?{address}").status == 400
    answered = server.get(f"/api/query?{address}")
    assert answered.status == 400 and list(json.loads(answered.body)) == ["fault"]


@pytest.mark.parametrize("body", [{}, {"q": 1}, {"q": None}, {"q": "x", "limit": True}, {"q": "x", "more": 1}, [], "x", {"q": "\ud800"}])
def test_objects_of_another_form_are_refused(server: Server, body: object) -> None:
    assert server.post("/api/query", body).status == 400


PATHS = ["/etc/passwd", "/../../etc/passwd", "/page.css/../../command.py", "/%2e%2e/%2e%2e/etc/passwd", "/page.css%00.js"]
PATHS += ["/assets/page.css", "//etc/passwd", "/..%5c..%5cetc"]


@pytest.mark.parametrize("path", PATHS)
def test_no_file_can_be_asked_for_by_its_path(server: Server, folder: Path, path: str) -> None:
    answered = server.get(path)
    assert answered.status == 404 and b"root:" not in answered.body
    for name in (path, "../" * 9 + "etc/passwd", "/etc/passwd", f"{folder}/texts.xml", "./texts.xml", "/texts.xml", "file:///etc/passwd"):
        told = server.get("/document", name=name)
        assert "there is no such document" in told.text and "root:" not in told.text
        assert server.lines(f'doc("{name}")//p')[-1]["part"] == "refused"


def test_questions_at_once_are_limited(program: Path, folder: Path) -> None:
    with served(program, folder) as server:
        server.comes_to(idle=2)
        begun = [server.begun(LONG) for _ in range(MOST_QUESTIONS)]
        refused = server.get("/api/query", q="collection()//p")
        assert refused.status == 503 and int(refused.headers["retry-after"]) > 0 and "fault" in json.loads(refused.body)
        assert server.get("/", q="collection()//p").status == 503
        assert server.status()["asked"] == MOST_QUESTIONS
        for _, _, name in reversed(begun):
            assert json.loads(server.post("/api/stop", {"id": name}).body) == {"stopped": True}
        for connection, response, _ in begun:
            assert json.loads(response.read().splitlines()[-1])["stopped"]
            connection.close()
        assert server.lines('collection()//p[. contains text "storm"]')[-1]["part"] == "end"


def test_requests_at_once_are_limited(program: Path, folder: Path) -> None:
    with served(program, folder) as server, contextlib.ExitStack() as wires:
        head = f"POST /api/query HTTP/1.1\r\nHost: 127.0.0.1:{server.port}\r\nContent-Type: application/json\r\nContent-Length: 9\r\n\r\n{{"
        for _ in range(MOST_REQUESTS):
            wires.enter_context(socket.create_connection(("127.0.0.1", server.port), timeout=30)).sendall(head.encode())
        end = time.monotonic() + 20
        while server.get("/api/status").status != 503:
            assert time.monotonic() < end
        assert server.get("/").headers["x-content-type-options"] == "nosniff"
        wires.close()
        while server.get("/api/status").status != 200:
            assert time.monotonic() < end


def test_it_listens_on_this_machine_alone(server: Server) -> None:
    listening = [line.split() for line in Path("/proc/net/tcp").read_text().splitlines()[1:]]
    addresses = {row[1] for row in listening if row[3] == "0A" and row[1].endswith(f":{server.port:04X}")}
    assert addresses == {f"0100007F:{server.port:04X}"}
    assert f":{server.port:04X}" not in Path("/proc/net/tcp6").read_text()
