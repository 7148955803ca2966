"""The JSON interface of ask serve against the document that describes it."""

from __future__ import annotations

import json
import re
import shlex
from pathlib import Path
from typing import Any, Iterator

import pytest

for module in ("lxml", "rich", "starlette", "uvicorn", "jinja2"):
    pytest.importorskip(module)
jsonschema = pytest.importorskip("jsonschema", reason="python3-jsonschema is not installed")

from conftest import TOP  # noqa: E402
from ftq_ask.serving.addresses import NAMES  # noqa: E402
from ftq_ask.serving.answering import MOST_SHOWN, USUAL_LIMIT  # noqa: E402
from serving import LONG, LONG_DOCUMENT, Server, served  # noqa: E402

STORM = 'collection()//p[. contains text "storm"]'


@pytest.fixture(scope="module")
def server(program: Path, tmp_path_factory: pytest.TempPathFactory) -> Iterator[Server]:
    top = tmp_path_factory.mktemp("described")
    (top / "a.xml").write_text("<r><p n='1'>storm ship</p><p>storm</p><empty n='2'/></r>")
    (top / "long.xml").write_text(LONG_DOCUMENT)
    (top / "faulty.xml").write_text("<r>")
    with served(program, top) as it:
        it.comes_to(idle=2)
        yield it


@pytest.fixture(scope="module")
def described(server: Server) -> dict[str, Any]:
    told: dict[str, Any] = json.loads(server.get("/api/openapi.json").body)
    return told


def check(described: dict[str, Any], schema: dict[str, Any], value: Any) -> None:
    """Raises where a value isn't of the form that the document describes."""
    jsonschema.Draft202012Validator({**schema, "components": described["components"]}).validate(value)


def check_response(described: dict[str, Any], operation: dict[str, Any], answered: Any) -> None:
    response = operation["responses"][str(answered.status)]
    if "$ref" in response:
        response = described["components"]["responses"][response["$ref"].rpartition("/")[2]]
    ((media, content),) = response["content"].items()
    assert answered.headers["content-type"] == media
    for value in answered.lines() if media == "application/x-ndjson" else [json.loads(answered.body)]:
        check(described, content["schema"], value)


def test_the_document_is_one_of_openapi(described: dict[str, Any]) -> None:
    assert described["openapi"].startswith("3.1")
    for schema in described["components"]["schemas"].values():
        jsonschema.Draft202012Validator.check_schema(schema)
    names = [operation["operationId"] for path in described["paths"].values() for operation in path.values()]
    assert len(names) == len(set(names))
    text = json.dumps(described)
    references = {part.partition('"')[0] for part in text.split('"$ref": "#/components/')[1:]}
    assert references == {f"{kind}/{name}" for kind, rows in described["components"].items() for name in rows}


QUESTIONS: list[dict[str, Any]] = [
    {"q": STORM},
    {"q": STORM, "limit": 1, "from": 2},
    {"q": "collection()//*", "element": "empty"},
    {"q": "collection()//*", "document": "a.xml", "whole": True},
    {"q": "collection()//p[. contains text 'don''t']", "as_typed": True},
    {"q": "collection()//para"},
    {"q": 'collection()//p[. contains text "storm" and "ship"]'},
    {"q": 'doc("absent")//p'},
    {"q": "# a comment"},
    {"q": ""},
    {"q": STORM, "limit": 1_001},
]


@pytest.mark.parametrize("values", QUESTIONS, ids=str)
def test_answers_are_as_described(server: Server, described: dict[str, Any], values: dict[str, Any]) -> None:
    path = described["paths"]["/api/query"]
    shown = {name: str(value).lower() if isinstance(value, bool) else value for name, value in values.items()}
    got, posted = server.get("/api/query", **shown), server.post("/api/query", values)
    check_response(described, path["get"], got)
    check_response(described, path["post"], posted)
    if got.status == 200:
        without = [{name: value for name, value in row.items() if name not in ("id", "seconds")} for row in got.lines()]
        assert without == [{name: value for name, value in row.items() if name not in ("id", "seconds")} for row in posted.lines()]
        parts = [row["part"] for row in got.lines()]
        assert parts[0] == "begin" and parts[-1] in ("end", "refused") and set(parts[1:-1]) <= {"count", "element"}


def test_what_is_refused_or_stopped_is_as_described(server: Server, described: dict[str, Any]) -> None:
    connection, response, name = server.begun(LONG)
    stop = described["paths"]["/api/stop"]["post"]
    for body in ({"id": name}, {"id": name + "0"}, {"id": 1}, {}):
        check_response(described, stop, server.post("/api/stop", body))
    last = json.loads(response.read().splitlines()[-1])
    check(described, described["components"]["schemas"]["Over"], last)
    connection.close()


def test_every_other_address_answers_as_described(server: Server, described: dict[str, Any]) -> None:
    asked = [path for path, operations in described["paths"].items() if "get" in operations and path != "/api/query"]
    assert sorted(asked) == ["/api/files", "/api/names", "/api/openapi.json", "/api/status"]
    for path in asked:
        check_response(described, described["paths"][path]["get"], server.get(path))
    assert json.loads(server.get("/api/names").body) == {"elements": {"r": 1, "p": 1, "empty": 1, "long": 1}, "attributes": {"n": 1}}
    assert [it["name"] for it in json.loads(server.get("/api/files").body)["documents"]] == ["a.xml", "long.xml"]


def test_what_may_be_asked_is_what_is_described(described: dict[str, Any]) -> None:
    wish = described["components"]["schemas"]["Wish"]
    parameters = {it["name"]: it for it in described["paths"]["/api/query"]["get"]["parameters"]}
    assert set(wish["properties"]) == set(parameters) == set(NAMES)
    assert all(parameters[name]["schema"] == form for name, form in wish["properties"].items())
    assert (wish["properties"]["limit"]["maximum"], wish["properties"]["limit"]["default"]) == (MOST_SHOWN, USUAL_LIMIT)


def test_a_form_that_is_otherwise_would_be_noticed(described: dict[str, Any]) -> None:
    line = described["components"]["schemas"]["Line"]
    good = {"part": "end", "hints": [], "seconds": 0.1}
    check(described, line, good)
    for wrong in ({**good, "more": 1}, {"part": "end", "hints": []}, {**good, "seconds": "1"}, {**good, "part": "End"}):
        with pytest.raises(jsonschema.ValidationError):
            check(described, line, wrong)


def test_the_page_shows_what_is_answered(program: Path, described: dict[str, Any]) -> None:
    page = (TOP / "docs" / "ASKING.md").read_text()
    ((command, shown),) = re.findall(r"```\n(curl [^\n]*)\n```\n\n```\n(.*?)```\n", page, re.DOTALL)
    words = [it.partition("=")[::2] for it in shlex.split(command) if re.match(r"\w+=", it)]
    assert [name for name, _ in words] == ["q", "limit"]
    with served(program, "docs/library", where=TOP) as it:
        rows = it.get("/api/query", **dict(words)).lines()
    wanted = [json.loads(line) for line in shown.splitlines()]
    for row in (*rows, *wanted):
        check(described, described["components"]["schemas"]["Line"], row)
        row.pop("id", None), row.pop("seconds", None)
    assert rows == wanted
    listed = set(re.findall(r"/api/[a-z.]+", page)) - {"/api/"}
    assert listed == set(described["paths"])
