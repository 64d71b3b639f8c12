#!/usr/bin/python3
"""browse_page.py PAGE FOLDER: uses a page of wrong_edge.txt in headless Chromium, and writes screenshots of two sizes
to FOLDER.

It runs with Debian's python3-selenium. The status is 1 where the page does not do what it should. The other scripts
take the browser and what people do there from here.
"""
import sys
import time
from collections.abc import Callable
from pathlib import Path
from typing import Any

from selenium import webdriver
from selenium.webdriver.chrome.service import Service
from selenium.webdriver.common.by import By
from selenium.webdriver.common.keys import Keys

# Runs in each page before its own scripts. It lists the timers and frames that the page waits for, and counts the
# fingers and buttons of the mouse that were lifted. A timer of ten seconds only frees the memory of a saved file.
WATCH = """
window.watched = { timers: new Set(), frames: new Set(), lifts: 0 };
{
  const { timers, frames } = watched;
  const { setTimeout, clearTimeout, requestAnimationFrame, cancelAnimationFrame } = window;
  window.setTimeout = (action, delay, ...words) => {
    const timer = setTimeout(() => { timers.delete(timer); action(...words); }, delay);
    if (!(delay >= 10000)) timers.add(timer);
    return timer;
  };
  window.clearTimeout = (timer) => { timers.delete(timer); clearTimeout(timer); };
  window.requestAnimationFrame = (action) => {
    const frame = requestAnimationFrame((now) => { frames.delete(frame); action(now); });
    frames.add(frame);
    return frame;
  };
  window.cancelAnimationFrame = (frame) => { frames.delete(frame); cancelAnimationFrame(frame); };
  // The handlers of the page's elements come before the window's.
  for (const kind of ["pointerup", "pointercancel"]) addEventListener(kind, () => { watched.lifts += 1; });
}
"""
# A script may run as long as a page of a large layout is busy on a slow machine, in seconds.
SCRIPT_SECONDS = 240


def open_browser(*words: str, **capabilities: str) -> webdriver.Chrome:
    """Returns a headless browser that watches its pages, as `WATCH` does. The words are options of Chromium."""
    options = webdriver.ChromeOptions()
    for word in ("--headless", "--no-sandbox", "--hide-scrollbars", *words):
        options.add_argument(word)
    options.set_capability("goog:loggingPrefs", {"browser": "ALL"})
    for name, value in capabilities.items():
        options.set_capability(name, value)
    browser = webdriver.Chrome(service=Service("/usr/bin/chromedriver"), options=options)
    browser.set_script_timeout(SCRIPT_SECONDS)
    watch(browser)
    return browser


def watch(browser: webdriver.Chrome) -> None:
    """Watches the pages that a tab opens from now on."""
    browser.execute_cdp_cmd("Page.addScriptToEvaluateOnNewDocument", {"source": WATCH})


def await_frames(browser: webdriver.Chrome) -> None:
    """Waits for two frames of the page. The first one lays the page out and tells it of parts whose size changed."""
    browser.execute_async_script("const done = arguments[0]; requestAnimationFrame(() => requestAnimationFrame(() => "
                                 "done()));")


def is_still(browser: webdriver.Chrome) -> bool:
    """Waits for two frames, and returns whether the page waits for no timer and no frame: nothing but an event can
    change it then."""
    await_frames(browser)
    return bool(browser.execute_script("return watched.timers.size + watched.frames.size === 0"))


def is_of_size(browser: webdriver.Chrome, width: int, height: int) -> bool:
    """Returns whether the page is laid out for a size of the window."""
    return bool(browser.execute_script("const { clientWidth, clientHeight } = document.documentElement; return "
                                       "clientWidth === arguments[0] && "
                                       "clientHeight === arguments[1]", width, height))


class Driven:
    """A page in a headless browser, and what people do there."""

    folder: Path
    browser: webdriver.Chrome
    sizes = {"wide": (1280, 800), "phone": (390, 844)}

    def __init__(self, folder: Path, *words: str, **capabilities: str) -> None:
        self.folder, self.browser = folder, open_browser(*words, **capabilities)

    def script(self, text: str, *words: Any) -> Any:
        """Runs a script in the page."""
        return self.browser.execute_script(text, *words)

    def text(self, name: str) -> str:
        """Returns the text of an element."""
        return self.browser.find_element(By.ID, name).text

    def is_shown(self, name: str) -> bool:
        """Whether an element can be seen."""
        return self.browser.find_element(By.ID, name).is_displayed()

    def click(self, selector: str, which: int = 0) -> None:
        """Clicks an element."""
        self.browser.find_elements(By.CSS_SELECTOR, selector)[which].click()

    def keys(self, *keys: str) -> None:
        """Presses keys on the picture."""
        self.browser.find_element(By.ID, "whole").send_keys(*keys)

    def state(self) -> str:
        """Returns what is told when a wait is too long."""
        return ""

    def wait(self, test: Callable[[], Any], what: str, seconds: float = 60) -> None:
        """Waits until something holds."""
        until = time.monotonic() + seconds
        while not test():
            assert time.monotonic() < until, what + self.state()
            time.sleep(0.05)

    def await_rest(self) -> None:
        """Waits until nothing on the page can change by itself: it is drawn, has spoken, and its address says what it
        shows."""
        self.wait(lambda: is_still(self.browser), "the page comes to rest")

    def set_size(self, width: int, height: int, is_phone: bool = False) -> None:
        """Sets the size of the window."""
        self.browser.execute_cdp_cmd("Emulation.setDeviceMetricsOverride",
                                     {"width": width, "height": height, "deviceScaleFactor": 1, "mobile": is_phone})

    def await_size(self, width: int, height: int) -> None:
        """Sets the size of the window, and waits until the page is laid out for it."""
        self.set_size(width, height)
        self.wait(lambda: is_of_size(self.browser, width, height), f"the page has the size {width} by {height}")

    def scheme(self, name: str) -> None:
        """Sets light or dark."""
        self.browser.execute_cdp_cmd("Emulation.setEmulatedMedia",
                                     {"features": [{"name": "prefers-color-scheme", "value": name}]})

    def keep_downloads(self) -> None:
        """Lets the page save files in the folder."""
        self.browser.execute_cdp_cmd("Browser.setDownloadBehavior",
                                     {"behavior": "allow", "downloadPath": str(self.folder)})

    def shoot(self, name: str) -> None:
        """Writes a screenshot at each size, with nothing wider than the window."""
        for size, (width, height) in self.sizes.items():
            self.await_size(width, height)
            self.await_rest()
            is_wide = self.script("return document.documentElement.scrollWidth > innerWidth")
            assert not is_wide, f"{name} is wider than the window at {size}"
            self.browser.save_screenshot(str(self.folder / f"{name}_{size}.png"))
        self.await_size(*self.sizes["wide"])

    def errors(self, *levels: str) -> list[str]:
        """Returns the messages of the console."""
        return [entry["message"] for entry in self.browser.get_log("browser") if entry["level"] in levels]


def use(page: Driven) -> None:
    """Steps, plays, toggles an input and clicks a fault."""
    assert page.text("time") == "0 of 6" and "no, for 2 reasons" in page.text("verdict")
    page.browser.find_element(By.TAG_NAME, "body").send_keys(Keys.ARROW_RIGHT)
    assert page.text("time") == "1 of 6"
    page.click("#inputs input[value=q]")
    page.wait(lambda: "c=1" in page.text("outputs"), "the output of the other input")
    assert "✗" not in page.text("outputs"), page.text("outputs")
    page.click("#play")
    page.wait(lambda: page.text("time") == "6 of 6" and "play" in page.text("play"), "it plays to the end")
    page.click("#report button", 1)
    assert page.text("time") == "5 of 6" and "Module 1 by itself with a=0 c=1" in page.text("beside-title")
    for name, size in {"large": (1300, 850), "small": (420, 900)}.items():
        page.await_size(*size)
        page.await_rest()
        page.browser.save_screenshot(str(page.folder / f"{name}.png"))


def end(page: Driven, use_all: Callable[[], None], *levels: str) -> int:
    """Uses a page, closes its browser, and returns the exit status: 1 where the console has errors, which it prints."""
    try:
        use_all()
        logged = page.errors(*levels)
    finally:
        page.browser.quit()
    for message in logged:
        print(message, file=sys.stderr)
    return 1 if logged else 0


def main() -> int:
    """Uses the page, and returns the exit status."""
    page = Driven(Path(sys.argv[2]), "--window-size=1300,850")
    page.browser.get(Path(sys.argv[1]).resolve().as_uri())
    return end(page, lambda: use(page), "SEVERE")


if __name__ == "__main__":
    sys.exit(main())
