"""The pages of ask serve in a browser: Chromium, driven by Selenium."""

from __future__ import annotations

import shutil
from pathlib import Path
from typing import Any, Iterator
from urllib.parse import urlencode

import pytest

for module in ("lxml", "rich", "starlette", "uvicorn", "jinja2"):
    pytest.importorskip(module)
webdriver = pytest.importorskip("selenium.webdriver", reason="python3-selenium is not installed")
CHROMIUM, DRIVER = shutil.which("chromium"), shutil.which("chromedriver")
pytestmark = pytest.mark.skipif(not (CHROMIUM and DRIVER), reason="chromium or chromium-driver is not installed")

from selenium.webdriver.common.action_chains import ActionChains  # noqa: E402
from selenium.webdriver.common.by import By  # noqa: E402
from selenium.webdriver.common.keys import Keys  # noqa: E402
from selenium.webdriver.support.ui import WebDriverWait  # noqa: E402

from serving import LONG, LONG_DOCUMENT, Server, served  # noqa: E402

QUESTION = 'collection()//p[. contains text "storm"]'


@pytest.fixture(scope="module")
def server(program: Path, tmp_path_factory: pytest.TempPathFactory) -> Iterator[Server]:
    top = tmp_path_factory.mktemp("pages")
    long_name = "a-very-long-name-of-an-element-that-no-narrow-page-has-the-room-for-without-breaking-it-somewhere"
    rows = "".join(f"<s><p>storm number {it} <script>alert(1)</script></p></s>" for it in range(300))
    (top / "a.xml").write_text(f"<r>{rows}<{long_name}>x</{long_name}></r>")
    (top / "b.xml").write_text(f"<r><p>{'storm' * 60} &lt;img src=x onerror=alert(1)&gt; storm</p><p>a <i>storm</i></p></r>")
    (top / "long.xml").write_text(LONG_DOCUMENT)
    with served(program, top) as it:
        it.comes_to(idle=2)
        yield it


class Browser:
    """A browser, and what is done in it."""

    def __init__(self, server: Server, waits: str = "normal") -> None:
        """One that waits for pages to be through before it does something, or doesn't (`none`)."""
        options = webdriver.ChromeOptions()
        options.page_load_strategy = waits
        for word in ("--headless=new", "--no-sandbox", "--disable-gpu", "--disable-dev-shm-usage"):
            options.add_argument(word)
        options.binary_location = CHROMIUM
        options.set_capability("goog:loggingPrefs", {"browser": "ALL", "performance": "ALL"})
        self.driver = webdriver.Chrome(service=webdriver.chrome.service.Service(DRIVER), options=options)
        self.url = server.url
        self.size(1280, 900)

    def size(self, width: int, height: int) -> None:
        told = {"width": width, "height": height, "deviceScaleFactor": 1, "mobile": width < 600}
        self.driver.execute_cdp_cmd("Emulation.setDeviceMetricsOverride", told)

    def scheme(self, name: str) -> None:
        self.driver.execute_cdp_cmd("Emulation.setEmulatedMedia", {"features": [{"name": "prefers-color-scheme", "value": name}]})

    def open(self, path: str, **values: Any) -> None:
        self.driver.get(self.url[:-1] + path + ("?" + urlencode(values) if values else ""))

    def press(self, *keys: str) -> None:
        for key in keys:
            ActionChains(self.driver).send_keys(key).perform()

    def all(self, selector: str) -> list[Any]:
        return list(self.driver.find_elements(By.CSS_SELECTOR, selector))

    def one(self, selector: str) -> Any:
        """The element that a selector leads to, once it is there."""
        return WebDriverWait(self.driver, 20).until(lambda _: self.all(selector))[0]

    def comes(self, what: Any) -> None:
        WebDriverWait(self.driver, 20).until(lambda _: what())

    def focused(self) -> Any:
        return self.driver.switch_to.active_element

    def script(self, code: str) -> Any:
        return self.driver.execute_script(f"return {code}")


@pytest.fixture(scope="module")
def running(server: Server) -> Iterator[Browser]:
    it = Browser(server)
    yield it
    it.driver.quit()


@pytest.fixture
def browser(running: Browser) -> Iterator[Browser]:
    """A browser at the first page; afterwards nothing may have gone wrong in it, nor anything have been asked of elsewhere."""
    running.size(1280, 900)
    running.scheme("light")
    running.open("/")
    running.script("localStorage.clear()")
    running.driver.get_log("browser")
    running.driver.get_log("performance")
    yield running
    assert [it["message"] for it in running.driver.get_log("browser") if it["level"] in ("SEVERE", "WARNING")] == []
    asked = [it["message"] for it in running.driver.get_log("performance") if '"Network.requestWillBeSent"' in it["message"]]
    assert asked and all(f'"url":"{running.url}' in it for it in asked)


def test_a_question_is_typed_and_its_answer_gone_through_by_keys(browser: Browser) -> None:
    browser.press(QUESTION, Keys.ENTER)
    browser.comes(lambda: browser.all("#count") and browser.one("#count").text == "302 elements")
    assert browser.script("new URLSearchParams(location.search).get('q')") == QUESTION
    assert len(browser.all("li.hit")) == 50 and browser.one("li.hit mark").text == "storm"
    browser.press("j", "j", "j", "k")
    assert browser.focused().find_element(By.XPATH, "..").get_attribute("id") == "hit-2"
    browser.press("]")
    browser.comes(lambda: browser.all("#hit-51"))
    browser.press("[")
    browser.comes(lambda: browser.all("#hit-1"))
    browser.press("/")
    assert browser.focused().get_attribute("id") == "q"
    browser.press(Keys.ESCAPE, "?")
    assert browser.one("#keys").is_displayed()
    browser.press(Keys.ESCAPE)
    assert not browser.one("#keys").is_displayed()
    browser.press("j", "j", "o")
    browser.one("ol.listed")
    assert browser.script("location.hash") == "#hit-2"


def test_a_line_can_be_broken_and_is_asked_as_one(browser: Browser) -> None:
    browser.press("collection()//p[")
    browser.one("#q").send_keys(Keys.SHIFT + Keys.ENTER)
    browser.press('. contains text "number 7"]', Keys.ENTER)
    browser.comes(lambda: browser.all("#count") and browser.one("#count").text == "1 element")


def test_a_document_is_stepped_through_also_over_its_parts(browser: Browser) -> None:
    browser.open("/document", name="a.xml", q=QUESTION, hit=1)
    browser.press("n")
    assert browser.focused().get_attribute("id") == "hit-2" and browser.script("location.hash") == "#hit-2"
    browser.one("#after").click()
    assert browser.focused().get_attribute("id") == "hit-3" and browser.one("ol.listed a[aria-current]").get_attribute("data-hit") == "3"
    browser.press("p")
    assert browser.focused().get_attribute("id") == "hit-2"
    last = int(browser.all("[id^=hit-]")[-1].get_attribute("id").removeprefix("hit-"))
    browser.open("/document", name="a.xml", q=QUESTION, hit=last)
    assert not browser.all(f"#hit-{last + 1}")
    browser.press("n")
    browser.comes(lambda: browser.all(f"#hit-{last + 1}"))
    assert browser.one("nav.turn span").text.startswith("part 2")
    top = browser.script(f"document.getElementById('hit-{last + 1}').getBoundingClientRect().top")
    assert 0 < top < 900
    browser.press("u")
    browser.comes(lambda: browser.all("li.hit"))
    assert browser.script("new URLSearchParams(location.search).get('q')") == QUESTION


def test_a_refused_question_is_repaired_by_a_key(browser: Browser) -> None:
    browser.press('collection()//p[. contains text "storm" and "ship"]', Keys.ENTER)
    at, sign = browser.one(".caret .at"), browser.one(".caret .sign")
    assert at.text == '"' and abs(at.location["x"] - sign.location["x"]) <= 1 and sign.location["y"] > at.location["y"]
    browser.press(Keys.ESCAPE)
    browser.press("a")
    browser.comes(lambda: browser.all("#count"))
    assert browser.one("#q").get_attribute("value").strip() == 'collection()//p[. contains text "storm" ftand "ship"]'


def test_a_filter_is_set_and_taken_away(browser: Browser) -> None:
    browser.open("/", q='collection()//*[. contains text "storm"]')
    browser.one("aside a").click()
    browser.comes(lambda: browser.all(".filtered a"))
    assert browser.one("#count").text.endswith("of 605")
    browser.one(".filtered a").click()
    browser.comes(lambda: not browser.all(".filtered a"))
    assert browser.one("#count").text == "605 elements"


def test_a_long_question_is_stopped_by_its_button(server: Server) -> None:
    server.comes_to(idle=2)
    hasty = Browser(server, waits="none")
    try:
        hasty.open("/")
        hasty.one("#ended")
        hasty.press(LONG, Keys.ENTER)
        hasty.comes(lambda: hasty.script("new URLSearchParams(location.search).has('q')"))
        button = hasty.one("#stop button")
        hasty.comes(button.is_displayed)
        hasty.comes(lambda: hasty.one("#taken").text.endswith(" s"))
        button.click()
        assert hasty.one(".fault h2").text == "the question was stopped"
        hasty.comes(lambda: not hasty.one("#stop").is_displayed())
        server.comes_to(idle=2, asked=0)
    finally:
        hasty.driver.quit()
    assert server.lines(QUESTION)[1]["count"] == 302


def test_light_and_dark_are_the_systems_or_chosen(browser: Browser) -> None:
    ground = "getComputedStyle(document.body).backgroundColor"
    light = browser.script(ground)
    browser.scheme("dark")
    dark = browser.script(ground)
    assert light != dark
    browser.open("/")
    browser.one("#theme").click()
    assert browser.script(ground) == light
    browser.open("/", q=QUESTION)
    assert browser.script(ground) == light and browser.one("#theme").text == "Dark"


CONTRAST = """(() => {
  const parts = (text) => text.match(/[\\d.]+/g).slice(0, 3).map(Number);
  const lit = (row) => {
    const [r, g, b] = row.map((it) => it / 255).map((it) => (it <= 0.03928 ? it / 12.92 : ((it + 0.055) / 1.055) ** 2.4));
    return 0.2126 * r + 0.7152 * g + 0.0722 * b;
  };
  const opaque = (it) => (it ? getComputedStyle(it).opacity * opaque(it.parentElement) : 1);
  const ground = (it) => {
    for (; it; it = it.parentElement) {
      const told = getComputedStyle(it).backgroundColor;
      if (!told.startsWith("rgba(0, 0, 0, 0")) return told;
    }
    return "rgb(255, 255, 255)";
  };
  const rows = [];
  const look = (name, style, part, behind) => {
    const under = parts(behind);
    const over = parts(style.color).map((it, at) => it * part + under[at] * (1 - part));
    const [a, b] = [lit(over), lit(under)].sort((x, y) => y - x);
    if ((a + 0.05) / (b + 0.05) < 4.5) rows.push(`${name} ${((a + 0.05) / (b + 0.05)).toFixed(2)}`);
  };
  for (const it of document.querySelectorAll("body *")) {
    const own = [...it.childNodes].some((node) => node.nodeType === 3 && node.data.trim());
    if (!own || !it.checkVisibility({ visibilityProperty: true })) continue;
    look(`${it.tagName}.${it.className}`, getComputedStyle(it), opaque(it), ground(it));
  }
  const field = document.getElementById("q");
  const hint = getComputedStyle(field, "::placeholder");
  look("placeholder", hint, hint.opacity * opaque(field), ground(field));
  return rows;
})()"""


@pytest.mark.parametrize("scheme", ["light", "dark"])
@pytest.mark.parametrize("width", [1280, 390, 320])
def test_pages_fit_and_are_legible(browser: Browser, width: int, scheme: str) -> None:
    browser.size(width, 800)
    browser.scheme(scheme)
    pages: list[tuple[str, dict[str, Any]]] = [("/", {}), ("/", {"q": QUESTION}), ("/", {"q": "collection()//p["})]
    pages += [("/document", {"name": f"{name}.xml", "q": QUESTION}) for name in "ab"]
    pages += [("/", {"q": "collection()//*", "limit": 1000}), ("/", {"q": f"collection()//{'x' * 300}"})]
    for path, values in pages:
        browser.open(path, **values)
        assert browser.script("document.documentElement.scrollWidth <= innerWidth"), (path, values)
        assert browser.script(CONTRAST) == [], (path, values)


def test_the_place_of_a_fault_is_seen_on_a_narrow_page(browser: Browser) -> None:
    browser.size(390, 800)
    browser.open("/", q='collection()//p[. contains text "storm"][. contains text "storm" and "ship"]')
    at = browser.one(".caret .at")
    assert at.text == '"' and at.location["x"] + at.size["width"] < 390
    assert not browser.one(".caret .sign").is_displayed()


def test_filters_of_a_narrow_page_are_opened(browser: Browser) -> None:
    browser.size(390, 800)
    browser.open("/", q=QUESTION)
    assert not browser.one("aside").is_displayed()
    browser.one("label.filters").click()
    assert browser.one("aside").is_displayed()


def test_markup_in_documents_and_questions_does_nothing(browser: Browser) -> None:
    hostile = "<img src=x onerror=\"document.title='hit'\"><script>document.title='hit'</script>"
    for path, values in (("/", {"q": hostile}), ("/", {"q": QUESTION}), ("/document", {"name": "b.xml", "q": QUESTION}), ("/document", {"name": hostile})):
        browser.open(path, **values)
        assert browser.script("document.scripts.length") == 1 and not browser.all("img") and browser.driver.title != "hit"
    browser.driver.get_log("browser")


def test_an_inline_script_is_not_run(browser: Browser) -> None:
    code = """(() => {
      const it = document.createElement("script");
      try { it.text = "document.title = 'hit'"; document.head.append(it); } catch {}
      return document.title;
    })()"""
    browser.open("/")
    assert browser.script(code) != "hit"
    refused = [it["message"] for it in browser.driver.get_log("browser")]
    assert any("Content Security Policy" in it or "TrustedScript" in it for it in refused)
