"""The page in a real browser: Debian's chromium, without a screen."""

from __future__ import annotations

import shutil
from collections.abc import Iterator
from contextlib import contextmanager
from typing import Any

from selenium import webdriver
from selenium.webdriver.chrome.service import Service
from selenium.webdriver.common.by import By
from selenium.webdriver.common.keys import Keys
from selenium.webdriver.remote.webelement import WebElement
from selenium.webdriver.support.ui import Select, WebDriverWait

__all__ = ["TABS", "Page", "browsing"]

TABS = ("triples", "turtle", "nested", "jsonld", "nquads", "items", "graph", "statistics")
_SECONDS = 30
# From a change of the source to the results: milliseconds.
_MEASURED = """
const [place, text, done] = arguments;
const { editor } = rdfax.live.workbench.source, { panel } = rdfax.live.workbench;
const start = performance.now();
const watch = new MutationObserver(() => {
  if (panel.getAttribute("aria-busy") !== "false") return;
  watch.disconnect();
  panel.getBoundingClientRect();
  done(performance.now() - start);
});
editor.replaceRange(text, editor.posFromIndex(place));
watch.observe(panel, { attributes: true, attributeFilter: ["aria-busy"] });
"""


class Page:
    """What a person does with the page, and sees of it."""

    def __init__(self, driver: webdriver.Chrome, address: str) -> None:
        self.driver, self.address = driver, address

    def opened(self, fragment: str) -> None:
        """Opens the page anew, with a state."""
        self.driver.get("about:blank")
        self.driver.get(self.address + fragment)
        self.wait("typeof rdfax === 'object' && rdfax.live && rdfax.live.examples")
        self.settled()

    def wait(self, condition: str) -> None:
        """Waits until this holds."""
        WebDriverWait(self.driver, _SECONDS, 0.02).until(lambda driver: driver.execute_script(f"return Boolean({condition})"))

    def settled(self, places: bool = False) -> None:
        """Waits until what is shown is that of the source, and its places where they are wanted."""
        self.wait("document.getElementById('panel').getAttribute('aria-busy') === 'false'")
        if places:
            self.wait("document.getElementById('panel').dataset.placed")

    def source(self, text: str | None = None) -> str:
        """Puts a source in, or answers the one that is there."""
        if text is None:
            return str(self.driver.execute_script("return rdfax.live.editor.getValue()"))
        self.driver.execute_script("rdfax.live.setSource(arguments[0])", text)
        self.settled()
        return text

    def example(self, name: str) -> None:
        """Chooses an example."""
        Select(self.one("#example")).select_by_value(name)
        self.settled()

    def tab(self, name: str) -> None:
        """Opens a tab."""
        self.one(f"#tab-{name}").click()
        self.settled()

    def one(self, selector: str) -> WebElement:
        """The element."""
        return self.driver.find_element(By.CSS_SELECTOR, selector)

    def all(self, selector: str) -> list[WebElement]:
        """The elements."""
        return self.driver.find_elements(By.CSS_SELECTOR, selector)

    def text(self, selector: str) -> str:
        """The text of the element."""
        return self.one(selector).text

    def keys(self, *keys: str) -> None:
        """Presses keys, where the focus is."""
        for key in keys:
            self.driver.switch_to.active_element.send_keys(key)

    def focused(self) -> Any:
        """The id, role or name of what has the focus."""
        return self.driver.execute_script("const e = document.activeElement; return e.id || e.getAttribute('data-row') || e.tagName")

    def marked(self, name: str) -> str:
        """The source that is marked so."""
        script = "return rdfax.live.workbench.source.marks.filter(m => m.className === arguments[0]).map(m => { const {from, to} = m.find(); return rdfax.live.editor.getRange(from, to); }).join('|')"
        return str(self.driver.execute_script(script, name))

    def measured(self, place: int, text: str) -> float:
        """How many milliseconds a change of the source takes to show."""
        return float(self.driver.execute_async_script(_MEASURED, place, text))

    def complaints(self) -> list[str]:
        """What the browser's console has of errors and warnings since it was last asked."""
        return [entry["message"] for entry in self.driver.get_log("browser") if entry["level"] in ("SEVERE", "WARNING")]

    def sized(self, width: int, height: int) -> None:
        """Gives the page this size, as a device has it."""
        metrics = {"width": width, "height": height, "deviceScaleFactor": 1, "mobile": width < 600}
        self.driver.execute_cdp_cmd("Emulation.setDeviceMetricsOverride", metrics)

    def dark(self, on: bool) -> None:
        """Asks for dark colours, or light ones."""
        feature = {"name": "prefers-color-scheme", "value": "dark" if on else "light"}
        self.driver.execute_cdp_cmd("Emulation.setEmulatedMedia", {"features": [feature]})


@contextmanager
def browsing(address: str) -> Iterator[Page]:
    """A browser with the page."""
    options = webdriver.ChromeOptions()
    for word in (
        "--headless=new",
        "--no-sandbox",
        "--disable-gpu",
        "--disable-dev-shm-usage",
        "--window-size=1280,800",
        "--hide-scrollbars",
        "--no-proxy-server",
    ):
        options.add_argument(word)
    options.binary_location = shutil.which("chromium") or "chromium"
    options.set_capability("goog:loggingPrefs", {"browser": "ALL"})
    driver = webdriver.Chrome(options=options, service=Service(shutil.which("chromedriver") or "chromedriver"))
    driver.set_script_timeout(_SECONDS)
    try:
        page = Page(driver, address)
        page.sized(1280, 800)
        yield page
    finally:
        driver.quit()


ENTER, ESCAPE, DOWN, RIGHT, END = Keys.ENTER, Keys.ESCAPE, Keys.ARROW_DOWN, Keys.ARROW_RIGHT, Keys.END
