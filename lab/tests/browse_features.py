#!/usr/bin/python3
"""browse_features.py FOLDER: tries what FOLDER/adder.html, FOLDER/faults.html, FOLDER/outputs.html and
FOLDER/crowd.html do in headless Chromium.

The pages are of full_adder.txt, wrong_edge.txt and of layouts with 48 outputs of which three are wrong, and with 600 of
which one is wrong. It runs with Debian's python3-selenium. Each test opens its page anew. BBMLAB_ONLY names one test.
"""
import os
import re
import sys
import unittest
import xml.etree.ElementTree as ET
from pathlib import Path

from browse_page import Driven, await_frames, is_of_size, open_browser
from selenium.webdriver.common.by import By
from selenium.webdriver.common.keys import Keys

FOLDER = Path(sys.argv.pop(1)).resolve()
WIDE, PHONE = (1280, 800), (390, 844)
# The picture as a file.
INK = "return document.getElementById('whole').toDataURL()"
# Counts what changes in live regions, which screen readers speak.
LISTEN = """window.spoken = [];
for (const part of document.querySelectorAll('[role=status],[role=alert],[aria-live],output')) {
  const seen = {childList: true, characterData: true, subtree: true};
  new MutationObserver(() => window.spoken.push(part.textContent)).observe(part, seen);
}"""


class Page(Driven, unittest.TestCase):
    """A page in a browser."""

    folder = FOLDER
    # A test case is made without arguments of the browser.
    __init__ = unittest.TestCase.__init__

    @classmethod
    def setUpClass(cls) -> None:
        cls.browser = open_browser("--touch-events=enabled")

    @classmethod
    def tearDownClass(cls) -> None:
        cls.browser.quit()

    def open(self, name: str, hash_text: str = "", size: tuple[int, int] = WIDE) -> None:
        """Opens a page with an address, as new."""
        self.keep_downloads()
        self.browser.get("about:blank")
        self.set_size(*size, is_phone=size == PHONE)
        self.browser.execute_cdp_cmd("Emulation.setTouchEmulationEnabled",
                                     {"enabled": size == PHONE, "maxTouchPoints": 2})
        self.browser.get_log("browser")
        self.browser.get((FOLDER / f"{name}.html").as_uri() + hash_text)
        self.wait(lambda: is_of_size(self.browser, *size), f"the page has the size {size}")
        # The picture has its place in the layout and its scale.
        await_frames(self.browser)

    def tearDown(self) -> None:
        """The console has no error, whatever was done."""
        self.assertEqual(self.errors("SEVERE", "WARNING"), [])

    def keys(self, *keys: str) -> None:
        """Presses keys where the focus is."""
        self.browser.switch_to.active_element.send_keys(*keys)

    def hash(self) -> str:
        """Returns the part of the address behind "#"."""
        return str(self.script("return location.hash"))

    def box(self, name: str) -> tuple[float, float, float, float]:
        """Returns where an element begins, its width and its height, in pixels."""
        left, top, width, height = self.script("const box = document.getElementById(arguments[0])"
                                               ".getBoundingClientRect(); "
                                               "return [box.left, box.top, box.width, box.height]", name)
        return left, top, width, height

    def inner_size(self) -> list[int]:
        """Returns the width and the height of the picture within its border, in pixels."""
        sides: list[int] = self.script("const { clientWidth, clientHeight } = document.getElementById('whole'); "
                                       "return [clientWidth, clientHeight]")
        return sides

    def middle(self) -> tuple[float, float]:
        """Returns the middle of the picture."""
        left, top, width, height = self.box("whole")
        return left + width / 2, top + height / 2

    def point(self, x: float, y: float, kind: str = "mouseMoved", name: str = "whole") -> None:
        """Moves the mouse to a place of an element, in pixels from its corner."""
        left, top, *_ = self.box(name)
        button = {} if kind == "mouseMoved" else {"button": "left", "clickCount": 1, "buttons": 1}
        self.browser.execute_cdp_cmd("Input.dispatchMouseEvent", {"type": kind, "x": left + x, "y": top + y, **button})


class Picture(Page):
    """The picture and what is below it."""

    def test_cell_under_the_pointer(self) -> None:
        """The cell is shown as messages write it, with what there is."""
        self.open("adder", "#z=20,20,17")
        width, height = self.inner_size()
        # The middle, beside the rulers of 32 and 18 pixels, is the place (20, 17): `in a 15 19` is 4.5 cells to the
        # left and 2.5 below.
        middle = 32 + (width - 32) / 2, 18 + (height - 18) / 2
        self.point(middle[0] - 4.5 * 20, middle[1] + 2.5 * 20)
        self.wait(lambda: self.text("cell") == "(15, 19): ball, in a",
                  f"the cell and what there is: {self.text('cell')}")
        self.point(middle[0] + 10.5 * 20, middle[1] + 2.5 * 20)
        self.wait(lambda: self.text("cell") == "(30, 19): mirror", f"a mirror: {self.text('cell')}")
        self.point(2, 2)
        self.wait(lambda: self.text("cell") == "", "no cell at a ruler")

    def test_go_to_a_cell(self) -> None:
        """A cell can be typed as messages write it."""
        self.open("adder")
        self.browser.find_element(By.ID, "go-to-cell").send_keys("(26, 13)", Keys.ENTER)
        self.wait(lambda: self.text("cell") == "(26, 13): mirror", "the cell is shown")

    def test_trails(self) -> None:
        """Trails are drawn, and a key switches them off and on, which the address keeps."""
        self.open("adder", "#t=6")
        self.wait(lambda: self.text("time") == "6 of 8", "the time of the address")
        self.await_rest()
        before = self.script(INK)
        self.keys("t")
        self.wait(lambda: self.script(INK) != before, "the picture is another one without trails")
        self.assertFalse(self.browser.find_element(By.ID, "trails").is_selected())
        self.wait(lambda: self.hash() == "#t=6&trails=0", "the address says that there are no trails")
        self.click("#trails")
        self.wait(lambda: self.script(INK) == before, "the picture is the first one again")

    def test_play_backwards(self) -> None:
        """From the end the key b plays to the start and stops there, and from the start it begins at the end."""
        self.open("adder", "#t=8")
        self.keys("b")
        self.wait(lambda: self.text("time") == "0 of 8" and "reverse" in self.text("reverse"), "it comes to the start")
        # A step in four seconds, so that a slow machine stops it on its way, and a list of the times, so that it misses
        # none.
        self.script("const speed = document.getElementById('speed'); speed.min = speed.value = -2; "
                    "speed.dispatchEvent(new Event('input'));"
                    "const time = document.getElementById('time'); window.times = [];"
                    "new MutationObserver(() => window.times.push(time.textContent)).observe(time, {childList: "
                    "true})")
        self.click("#reverse")
        self.wait(lambda: self.script("return window.times.length") >= 2, "it plays")
        self.assertEqual(self.script("return window.times.slice(0, 2)"), ["8 of 8", "7 of 8"], "it begins at the end")
        self.keys(" ")
        self.wait(lambda: "reverse" in self.text("reverse"), "space stops")
        self.assertNotEqual(self.text("time"), "0 of 8", "it stopped at the start, and not by the key")

    def test_waveform(self) -> None:
        """The waveform is drawn under the picture, and a click on it goes to that time."""
        self.open("adder", "#on=a")
        self.await_rest()
        (_, top, width, _), (_, upper, _, height) = self.box("wave"), self.box("whole")
        self.assertGreater(top, upper + height)
        line = "return parseFloat(document.getElementById('wave-cursor').style.left)"
        first = self.script(line)
        self.point(width * 0.7, 20, "mousePressed", "wave")
        self.point(width * 0.7, 20, "mouseReleased", "wave")
        self.wait(lambda: self.text("time") in ("5 of 8", "6 of 8"), f"the time there: {self.text('time')}")
        self.assertGreater(self.script(line), first + 100)

    def test_files(self) -> None:
        """PNG and SVG have what is seen: the size of the picture, and its texts."""
        self.open("adder", "#t=8")
        self.await_rest()
        for kind, end in (("png", b"IEND\xaeB`\x82"), ("svg", b"</svg>")):
            file = FOLDER / f"adder_8.{kind}"
            file.unlink(missing_ok=True)
            self.click(f"#{kind}")
            self.wait(lambda: file.exists() and file.read_bytes().rstrip().endswith(end),
                      f"the whole {kind} file comes")
        width, height = self.inner_size()
        png, svg = (FOLDER / "adder_8.png").read_bytes(), ET.parse(FOLDER / "adder_8.svg").getroot()
        self.assertEqual((png[:8], int.from_bytes(png[16:20]), int.from_bytes(png[20:24])),
                         (b"\x89PNG\r\n\x1a\n", width, height))
        self.assertEqual((float(svg.get("width")), float(svg.get("height"))), (width, height))
        texts = [part.text for part in svg.iter("{http://www.w3.org/2000/svg}text")]
        self.assertLessEqual({"✓ sum→", "→carry", "→a", "12"}, set(texts))


class Report(Page):
    """The report, the outputs and the inputs."""

    def test_long_boxes(self) -> None:
        """Of 600 outputs and inputs 500 are shown at first, and all when the boxes were scrolled. A switch that is
        shown then is as its input."""
        self.open("crowd")
        self.wait(lambda: self.text("outputs-count") == "1 of 600 outputs differ", self.text("outputs-count"))
        self.browser.find_element(By.ID, "none").click()
        self.wait(lambda: self.text("outputs-count") == "All 600 outputs are as the circuit says.",
                  self.text("outputs-count"))
        for box, item in (("outputs", "span"), ("inputs", "label")):
            count = f"return document.querySelectorAll('#{box} > {item}').length"
            self.assertEqual(self.script(count), 500)
            self.script(f"const box = document.getElementById('{box}'); "
                        "box.scrollTop = box.scrollHeight")
            self.wait(lambda: self.script(count) == 600, f"the box {box} shows all")
        self.assertEqual(self.script("return document.querySelectorAll('#inputs :checked').length"), 0)

    def test_wrong_outputs_first(self) -> None:
        """The count is shown, and the outputs that differ come first."""
        self.open("outputs")
        self.wait(lambda: self.text("outputs-count") == "3 of 48 outputs differ", self.text("outputs-count"))
        shown = [part.text for part in self.browser.find_elements(By.CSS_SELECTOR, "#outputs > span")]
        self.assertEqual([text.split()[:2] for text in shown[:4]],
                         [["✗", "w5=1"], ["✗", "w17=1"], ["✗", "w40=1"], ["✓", "w0=1"]])
        self.assertTrue(all(part.is_displayed()
                            for part in self.browser.find_elements(By.CSS_SELECTOR, "#outputs .bad")))
        self.click("#none")
        self.wait(lambda: self.text("outputs-count") == "All 48 outputs are as the circuit says.",
                  self.text("outputs-count"))

    def test_all_and_none(self) -> None:
        """Two buttons put all inputs on and off."""
        self.open("outputs")
        boxes = self.browser.find_elements(By.CSS_SELECTOR, "#inputs input")
        self.click("#none")
        self.assertEqual(sum(box.is_selected() for box in boxes), 0)
        self.click("#all")
        self.assertEqual(sum(box.is_selected() for box in boxes), 48)

    def test_begin_with_is_a_link(self) -> None:
        """The report's words name the line to begin with, and a click on it goes there."""
        self.open("faults")
        links = self.browser.find_elements(By.CSS_SELECTOR, "#report p a")
        begin = next(link for link in links if link.text.startswith("local"))
        self.assertIn(f"Begin with {begin.text}", begin.find_element(By.XPATH, "..").text)
        begin.click()
        pressed = self.browser.find_elements(By.CSS_SELECTOR, "#report button[aria-pressed=true]")
        self.assertEqual([button.text for button in pressed], [f"✗ {begin.text}"])
        self.assertIn("by itself", self.text("beside-title"))

    def test_faults_by_key(self) -> None:
        """n and p go through the lines that are against the design, and round."""
        self.open("faults")
        count = len([button for button in self.browser.find_elements(By.CSS_SELECTOR, "#report button")
                     if button.text.startswith("✗")])
        def pressed() -> list[int]:
            """Returns which lines are chosen."""
            return [at for at, part in enumerate(self.browser.find_elements(By.CSS_SELECTOR, "#report button"))
                    if part.get_attribute("aria-pressed") == "true"]

        self.assertEqual((count, pressed()), (2, []))
        for key, wanted in (("n", 0), ("n", 1), ("n", 0), ("p", 1), ("p", 0), ("p", 1)):
            self.keys(key)
            self.assertEqual(pressed(), [wanted], key)

    def test_skip_link(self) -> None:
        """The report is three keys away, however many inputs there are."""
        self.open("faults")
        self.keys(Keys.TAB)
        self.assertIn("Skip", self.browser.switch_to.active_element.text)
        self.assertGreaterEqual(self.script("return document.activeElement.getBoundingClientRect().top"), 0)
        self.keys(Keys.ENTER)
        self.keys(Keys.TAB)
        self.assertTrue(self.script("return document.getElementById('report-box').contains(document.activeElement)"))

    def test_speaks_when_it_stops(self) -> None:
        """While it plays no live region changes; when it has stopped one says the time and the outputs, once."""
        self.open("adder")
        self.await_rest()
        self.script(LISTEN)
        self.keys(" ")
        # What it spoke while it played would be in the list too.
        self.wait(lambda: self.script("return window.spoken.length"), "it speaks")
        self.await_rest()
        self.assertEqual(self.script("return window.spoken"),
                         ["Time 8 of 8. The last time. All 2 outputs are as the circuit says."])


class State(Page):
    """The state in the address."""

    def test_is_restored(self) -> None:
        """Time, inputs, zoom and the line of the report come back when the address is opened again."""
        self.open("faults")
        self.keys("n")
        self.click("#inputs input")
        self.keys("+", "+", Keys.ARROW_RIGHT)
        look = ("return [document.getElementById('time').textContent, [...document.querySelectorAll('#inputs "
                "input')].map((box) => box.checked),"
                "document.getElementById('beside-title').textContent, document.getElementById('cell').textContent]")
        self.await_rest()
        kept = self.hash()
        self.assertTrue("z=" in kept and "fault=1" in kept and "on=" in kept, kept)
        self.point(200, 100)
        self.wait(lambda: re.search(r"\(\d+, \d+\)", self.text("cell")), "the cell under the pointer is shown")
        before = self.script(look)
        self.open("faults", kept)
        self.point(201, 101)
        self.wait(lambda: self.script(look) == before, f"all is shown as before: {before}")
        self.await_rest()
        self.assertEqual(self.script(look), before)
        self.assertEqual(self.hash(), kept)

    def test_follows_the_address(self) -> None:
        """An address that is typed into an open page is followed."""
        self.open("adder")
        self.script("location.hash = '#t=3&on=b'")
        self.wait(lambda: self.text("time") == "3 of 8", self.text("time"))
        on = self.script("return [...document.querySelectorAll('#inputs input')].filter((box) => "
                         "box.checked).map((box) => box.value)")
        self.assertEqual(on, ["b"])

    def test_a_hostile_address(self) -> None:
        """Nothing of an address becomes part of the page, and the page is as without it."""
        for text in ("#t=<img src=x onerror=alert(1)>&on=__proto__,<b>x</b>&z=1e9,NaN,0&fault=99", "#%E0%A4%A",
                     "#" + "t=9&" * 20000,
                     "#z=0,0,0&t=99999999999999999999", "#constructor=1&__proto__=2&fault=constructor",
                     "#t=4;z=javascript:alert(1)"):
            self.open("adder", text)
            self.wait(lambda: self.text("outputs-count").startswith("All 2 outputs"), f"the page works at {text[:60]}")
            self.assertEqual(self.text("time"), "0 of 8")
            self.assertEqual(self.script("return document.querySelectorAll('img, b, iframe').length"), 0)
            self.assertNotIn("NaN",
                             self.script("return document.body.textContent.split('Lines of the certificate')[0]"))


class Phone(Page):
    """The page on a phone."""

    def test_scrolls_from_the_picture(self) -> None:
        """A finger that moves up on the picture scrolls the page."""
        self.open("adder", size=PHONE)
        self.assertEqual(self.script("return [scrollX, scrollY]"), [0, 0])
        x, y = self.middle()
        self.drag([[(x, y - up)] for up in range(0, 201, 10)])
        self.wait(lambda: self.script("return scrollY") > 100, "the page is scrolled")

    def test_two_fingers_zoom(self) -> None:
        """Two fingers that part on the picture zoom it, and leave the page where it is."""
        self.open("adder", size=PHONE)
        x, y = self.middle()
        self.drag([[(x - 20 - apart, y), (x + 20 + apart, y)] for apart in range(0, 61, 5)])
        self.await_rest()
        self.assertIn("z=", self.hash())
        self.assertGreater(float(self.hash().split("z=")[1].split(",")[0]), 15)
        self.assertEqual(self.script("return scrollY"), 0)

    def test_two_fingers_move(self) -> None:
        """Two fingers that go up together move the picture by as much, and not the page."""
        self.open("adder", "#z=10,20,17", size=PHONE)
        x, y = self.middle()
        self.drag([[(x - 30, y - up), (x + 30, y - up)] for up in range(0, 101, 10)])
        self.await_rest()
        self.assertNotEqual(self.hash(), "#z=10,20,17")
        scale, _, row = map(float, self.hash().split("z=")[1].split(","))
        self.assertAlmostEqual(scale, 10, delta=1)
        self.assertAlmostEqual(row, 27, delta=2)
        self.assertEqual(self.script("return scrollY"), 0)

    def drag(self, places: list[list[tuple[float, float]]]) -> None:
        """Puts fingers at the first places, moves them over the others, and lifts them.

        Waits until the page knows that they are lifted.
        """
        lifts = self.script("return watched.lifts")
        for number, fingers in enumerate(places):
            points = [{"x": x, "y": y, "id": at} for at, (x, y) in enumerate(fingers)]
            self.browser.execute_cdp_cmd("Input.dispatchTouchEvent",
                                         {"type": "touchMove" if number else "touchStart", "touchPoints": points})
            # The page hears of places between two frames only by the last one of them.
            await_frames(self.browser)
        self.browser.execute_cdp_cmd("Input.dispatchTouchEvent", {"type": "touchEnd", "touchPoints": []})
        self.wait(lambda: self.script("return watched.lifts") >= lifts + len(places[0]),
                  "the page has heard of the fingers")

    def test_fits(self) -> None:
        """Nothing is wider than the window, and the buttons are large enough for a finger."""
        for name in ("adder", "faults", "outputs"):
            self.open(name, size=PHONE)
            self.assertFalse(self.script("return document.documentElement.scrollWidth > innerWidth"), name)
        small = self.script("return [...document.querySelectorAll('#transport button, #tools "
                            "button')].filter((part) => part.offsetHeight < 30)"
                            ".map((part) => part.id)")
        self.assertEqual(small, [])


if __name__ == "__main__":
    unittest.main(argv=[sys.argv[0], *os.environ.get("BBMLAB_ONLY", "").split()])
