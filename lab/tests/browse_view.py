#!/usr/bin/python3
"""browse_view.py FOLDER: uses FOLDER/fault.html (of wrong_border.txt), FOLDER/wrong.html, FOLDER/machine.html (of the
machine adder_4) and FOLDER/large.html in headless Chromium.

It runs with Debian's python3-selenium, and writes screenshots of two sizes, light and dark, to FOLDER.
"""
import re
import sys
import time
from pathlib import Path
from typing import Callable

from browse_page import Driven, end, is_of_size
from selenium.webdriver.common.action_chains import ActionChains
from selenium.webdriver.common.by import By
from selenium.webdriver.common.keys import Keys

# The run to 65,536 takes 7 s on four processors that are busy with other work (2026-11-29): a machine may be 40 times
# slower.
END_SECONDS = 300


class Page(Driven):
    """A page of the folder."""

    def open(self, name: str) -> None:
        """Opens a page of the folder at the wide size."""
        self.await_size(*self.sizes["wide"])
        self.browser.get((self.folder / f"{name}.html").resolve().as_uri())
        self.wait(lambda: is_of_size(self.browser, *self.sizes["wide"]), f"the page {name} has its size")


def use_controls(page: Page) -> None:
    """Steps by keys and buttons, plays, and toggles an input."""
    page.open("fault")
    assert page.text("time") == "0 of 3" and "The verdict is no" in page.text("verdict"), page.text("verdict")
    page.keys(Keys.ARROW_RIGHT)
    assert page.text("time") == "1 of 3" and "edge 1 3 3 p" in page.text("lines"), page.text("lines")
    page.keys(Keys.END, Keys.ARROW_LEFT)
    assert page.text("time") == "2 of 3"
    page.keys(Keys.HOME)
    page.click("#next")
    assert page.text("time") == "1 of 3"
    page.wait(lambda: "a=1" in page.text("outputs"), "all inputs are on at first")
    page.click("#inputs input[value=q]")
    page.wait(lambda: "c=1" in page.text("outputs"), "the switch of q changes the outputs")
    assert "✗" not in page.text("outputs") and "(p=1)" in page.text("lines"), page.text("lines")
    page.keys(" ")
    page.wait(lambda: page.text("time") == "3 of 3" and "play" in page.text("play"),
              "playing comes to the end and stops")
    page.keys("+", "+", Keys.SHIFT + Keys.ARROW_LEFT + Keys.NULL, "0")
    assert "Nothing on this page is proved" in page.browser.find_element(By.TAG_NAME, "footer").text


def use_report(page: Page) -> None:
    """Clicks lines of the report."""
    page.click("#report button")
    assert page.text("time") == "3 of 3" and "Module 0 by itself with p=0 q=1" in page.text("beside-title"), page.text(
        "beside-title")
    page.wait(lambda: "1 cell differs" in page.text("beside-note"), "the cell that differs is counted")
    assert not page.browser.find_element(By.CSS_SELECTOR, "#inputs input[value=p]").is_selected()
    page.shoot("fault")
    page.scheme("dark")
    page.shoot("fault_dark")
    page.scheme("light")
    page.click("#report button", 1)
    assert page.text("time") == "1 of 3" and not page.is_shown("beside")
    page.shoot("border")


def use_wrong(page: Page) -> None:
    """Shows outputs that are not as the circuit says."""
    page.open("wrong")
    page.wait(lambda: "✗" in page.text("outputs"), "a wrong output has its sign")
    page.keys(Keys.END)
    page.shoot("wrong")


# Returns the middle cell of the longest piece of a wire, and the time there.
PIECE = """const { wires } = JSON.parse(document.getElementById('data').textContent).ways;
const wire = wires.find(({ name, equal }) => [name, ...equal].includes(arguments[0]));
let best = [0];
for (let at = 0; at < wire.pieces.length; at += 5) {
  const [x, y, u, v, time] = wire.pieces.slice(at, at + 5), far = Math.abs(u - x), half = far >> 1;
  if (far > best[0]) best = [far, x + Math.sign(u - x) * half, y + Math.sign(v - y) * half, time + half];
}
return best.slice(1);"""
# Returns what is not clear among the pixels of the picture: the ways are seen at once.
SEEN = """const whole = document.getElementById('whole'), { width, height } = whole, pen = whole.getContext('2d');
return new Set(new Uint32Array(pen.getImageData(40, 30, width - 50, height - 40).data.buffer)).size;"""


def zoom_of(page: Page) -> list[float] | None:
    """Returns the scale and the middle that the address says, or None."""
    found = [part for part in page.script("return location.hash").lstrip("#").split("&") if part.startswith("z=")]
    return [float(number) for number in found[0][2:].split(",")] if found else None


def use_machine(page: Page) -> None:
    """Looks for a wire, goes to it by the small picture and by its cell, points at it, and plays at the highest speed.
    """
    page.open("machine")
    page.await_rest()
    assert page.browser.find_element(By.ID, "ways").is_selected(), "a large layout shows its ways"
    assert page.script(SEEN) > 100, "the ways are drawn at once"
    assert not page.is_shown("map"), "all is shown, so there is no small picture"
    page.browser.find_element(By.ID, "find-wire-name").send_keys("s2", Keys.ENTER)
    page.wait(lambda: "made by" in page.text("wire-words") and "an output" in page.text("wire-words"),
              "the wire's gate is told")
    page.click("#in")
    page.click("#in")
    page.wait(lambda: page.is_shown("map"), "the small picture shows where one is")
    page.shoot("machine")
    page.wait(lambda: (zoom_of(page) or [9.0])[1] > 100, "the address says the place")
    page.click("#map")
    ActionChains(page.browser).move_to_element_with_offset(page.browser.find_element(By.ID, "map"), -60,
                                                           -60).click().perform()
    page.wait(lambda: all(part < 200 for part in (zoom_of(page) or [0, 999, 999])[1:]),
              "a press on the small picture goes there")
    x, y, time = page.script(PIECE, "s2")
    page.browser.find_element(By.ID, "go-to-cell").send_keys(f"{x}, {y}", Keys.ENTER)
    page.wait(lambda: f"({x}, {y})" in page.text("cell"), "it goes to the cell")
    # The cell is in the middle of the picture beside its rulers.
    ActionChains(page.browser).move_to_element_with_offset(page.browser.find_element(By.ID, "whole"), 16, 9).perform()
    page.wait(lambda: f"({x}, {y})" in page.text("cell") and "s2" in page.text("wire-words")
              and re.search(rf"here at time .*\b{time}\b", page.text("wire-words")),
              "the way under the pointer tells its wire and time")
    page.scheme("dark")
    page.shoot("machine_dark")
    page.scheme("light")
    page.script("const s = document.getElementById('speed'); s.value = s.max; s.dispatchEvent(new "
                "Event('input'));")
    page.click("#play")
    steps = page.text("time").split(" of ")[1]
    page.wait(lambda: page.text("time") == f"{steps} of {steps}", "it plays to the end at the highest speed",
              END_SECONDS)
    page.wait(lambda: "outputs are as the circuit says" in page.text("outputs-count"), "the outputs are there")


FRAMES = """const done = arguments[arguments.length - 1], start = performance.now();
let count = 0;
const next = () => {
  count += 1;
  if (performance.now() - start < 3000) requestAnimationFrame(next);
  else done(count / 3);
};
requestAnimationFrame(next);"""
# Counts the steps of runs that go to a time. The run to the end, which goes on meanwhile, never does.
COUNT = """const run = bbmlab.automaton.WholeRun.prototype, sought = new Set();
const { jumpToSnapshot, stepForward, stepBackward } = run;
window.stepCount = 0;
run.jumpToSnapshot = function (time) { sought.add(this); jumpToSnapshot.call(this, time); };
run.stepForward = function () { window.stepCount += Number(sought.has(this)); return stepForward.call(this); };
run.stepBackward = function () { window.stepCount += Number(sought.has(this)); return stepBackward.call(this); };"""
# From the nearest snapshot no time of 65,536 is more than 512 steps away.
MAX_STEPS = 600


def go_to(page: Page, action: Callable[[], object], time_text: str, most: int, seconds: float = 60) -> None:
    """Goes to a time by a limited number of steps, since how long a step takes depends on the machine."""
    page.script("window.stepCount = 0")
    action()
    page.wait(lambda: page.text("time") == time_text, f"the page comes to {time_text}", seconds)
    count = page.script("return window.stepCount")
    assert 0 < count <= most, f"{count} steps to {time_text}"


def use_large(page: Page) -> None:
    """Goes to the last of 65,536 times of 512 by 512 cells with 1,024 balls, and back, while the page still answers,
    and plays smoothly."""
    page.open("large")
    page.wait(lambda: page.text("time") == "0 of 65536", "the page answers while it runs ahead")
    page.script(COUNT)
    start = time.monotonic()
    go_to(page, lambda: page.keys(Keys.END), "65536 of 65536", 65536, END_SECONDS)
    print(f"the last time after {time.monotonic() - start:.1f} s")
    go_to(page, lambda: page.keys(Keys.ARROW_LEFT), "65535 of 65536", 1)
    slider = "const s = document.getElementById('slider'); s.value = 30001; s.dispatchEvent(new Event('input'));"
    go_to(page, lambda: page.script(slider), "30001 of 65536", MAX_STEPS)
    page.wait(lambda: "Running" not in page.text("outputs-count"), "the run to the end comes to it", END_SECONDS)
    page.keys("b")
    frames = page.browser.execute_async_script(FRAMES)
    print(f"{frames} frames a second with trails")
    page.wait(lambda: int(page.text("time").split()[0]) < 30001, "it plays backwards")
    page.keys(" ")
    page.shoot("large")


def main() -> int:
    """Uses the pages, and returns the exit status: 1 where the console has an error."""
    page = Page(Path(sys.argv[1]))

    def use_all() -> None:
        for use in (use_controls, use_report, use_wrong, use_machine, use_large):
            use(page)

    return end(page, use_all, "SEVERE", "WARNING")


if __name__ == "__main__":
    sys.exit(main())
