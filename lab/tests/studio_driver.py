"""A server of the studio and a headless Chromium that uses its page, with Debian's python3-selenium."""

import subprocess
import sys
import time
from pathlib import Path

from browse_page import Driven, await_frames, watch
from selenium.webdriver.common.action_chains import ActionChains
from selenium.webdriver.common.by import By
from selenium.webdriver.common.keys import Keys
from selenium.webdriver.remote.webelement import WebElement

# What the page says, for the message of a wait that is too long.
WORDS = "return ['name', 'badge', 'status', 'report', 'dialog'].map((id) => document.getElementById(id)?.innerText)"


class Studio(Driven):
    """A server of a file, and a browser."""

    sizes = {"wide": (1400, 850), "phone": (390, 844)}

    def __init__(self, folder: Path, program: str, lab: str) -> None:
        super().__init__(folder, "--window-size=1400,850", unhandledPromptBehavior="accept")
        self.program, self.lab = program, lab
        self.server: subprocess.Popen[str] | None = None

    def serve(self, name: str) -> str:
        """Starts a server of a file, and returns its address."""
        self.kill()
        words = [sys.executable, self.lab, "studio", str(self.folder / name), "--no-open", "--program", self.program]
        self.server = subprocess.Popen(words, stdout=subprocess.PIPE, stderr=subprocess.DEVNULL, text=True)
        return self.server.stdout.readline().strip()

    def kill(self) -> None:
        """Kills the server."""
        if self.server:
            self.server.kill()
            self.server.wait()
            self.server = None

    def start(self, name: str, text: str | None = None) -> str:
        """Starts a server of a file, which has a text or is as it was, opens its page, and returns the address."""
        if text is not None:
            (self.folder / name).write_text(text)
        address = self.serve(name)
        # A page of the same address is not loaded by a new part behind `#`: it loads itself again, which takes a
        # moment.
        self.script("window.isOld = true")
        self.browser.get(address)
        self.wait(lambda: self.script("return window.isOld !== true && document.readyState === 'complete'"),
                  "the page is loaded")
        self.wait(lambda: self.text("name").startswith(name), "the file is opened")
        self.wait(lambda: self.script("return bbmlab.studio.tools.cell !== null"), "the cells are there")
        return address

    def new_tab(self) -> None:
        """Opens another tab, and goes on there."""
        self.browser.switch_to.new_window("tab")
        watch(self.browser)

    def open(self, name: str) -> None:
        """Opens a file in the page that is open."""
        self.script("bbmlab.studio.files.openFile(arguments[0])", name)
        self.wait(lambda: self.text("name") == name, f"{name} is opened")
        self.click("#fit")

    def begin(self, name: str, text: str, verdict: str = "") -> None:
        """Writes a file, opens it, and waits for a verdict if one is given."""
        (self.folder / name).write_text(text)
        self.open(name)
        if verdict:
            self.verdict(verdict)

    def layout_text(self) -> str:
        """Returns the text that is drawn."""
        return str(self.script("return bbmlab.studio.desk.model.text"))

    def state(self) -> str:
        """Returns what the page says."""
        return f": {self.script(WORDS)!r}"

    def is_verdict(self, wanted: str) -> bool:
        """Returns whether the page shows a verdict that is not outdated."""
        return bool(self.script("return document.getElementById('badge').textContent === arguments[0] && "
                                "bbmlab.studio.verdicts.isCurrent", wanted))

    def verdict(self, wanted: str, seconds: float = 60) -> float:
        """Waits for a verdict that is not outdated, and returns how many seconds it took."""
        start = time.monotonic()
        self.wait(lambda: self.is_verdict(wanted), f"the verdict {wanted}", seconds)
        return time.monotonic() - start

    def await_text(self, name: str, words: str) -> None:
        """Waits until the text of an element contains some words."""
        self.wait(lambda: words in self.text(name), f"{name} says {words!r}")

    def rest(self) -> None:
        """Waits until the page waits for no timer and no frame, and knows which tabs are open."""
        self.await_rest()
        # The browser answers such questions in their order, so that an earlier one of the page is answered then.
        self.browser.execute_async_script("const done = arguments[0]; navigator.locks.query().then(() => "
                                          "setTimeout(done));")

    def still(self) -> None:
        """Waits until the ways are of the text as it is."""
        self.wait(lambda: self.script("const { desk } = bbmlab.studio; return desk.surveyOrder === desk.order"),
                  "the ways are there")

    def place(self, x: float, y: float) -> tuple[int, int]:
        """Returns the place of a cell on the canvas, from its middle, in pixels."""
        found = self.script("const s = bbmlab.studio.sketch, c = document.getElementById('whole'); return [s.scale, "
                            "s.left, s.top, c.clientWidth, c.clientHeight]")
        scale, left, top, wide, high = found
        return round((x + 0.5 - left) * scale - wide / 2), round((y + 0.5 - top) * scale - high / 2)

    def chain(self) -> ActionChains:
        """Returns a chain of quick actions."""
        return ActionChains(self.browser, duration=10)

    def aim(self, x: int, y: int) -> None:
        """Moves the mouse to a cell, until the page knows it there."""
        # The words below the picture, which change with the cell, may change the scale of the picture.
        canvas, moved = self.browser.find_element(By.ID, "whole"), None

        def is_there() -> bool:
            nonlocal moved
            await_frames(self.browser)
            place = self.place(x, y)
            if place == moved and self.script("return bbmlab.studio.sketch.pointed") == [x, y]:
                return True
            moved = place
            self.chain().move_to_element_with_offset(canvas, *place).perform()
            return False

        self.wait(is_there, f"the mouse is at ({x}, {y})")

    def hold(self, x: int, y: int) -> None:
        """Presses the button of the mouse at a cell."""
        self.aim(x, y)
        self.chain().click_and_hold().perform()
        self.wait(lambda: self.script("return bbmlab.studio.tools.pressed !== null"), f"the tool begins at ({x}, {y})")

    def lift(self) -> None:
        """Lifts the button of the mouse, and waits until the page has done what follows."""
        count = self.lift_count()
        self.chain().release().perform()
        self.wait(lambda: self.lift_count() > count, "the page has heard of the button")

    def lift_count(self) -> int:
        """Returns how many times a finger or the button of the mouse was lifted."""
        return int(self.script("return watched.lifts"))

    def press(self, x: int, y: int) -> None:
        """Clicks a cell."""
        self.hold(x, y)
        self.lift()

    def drag(self, start: tuple[int, int], end: tuple[int, int]) -> None:
        """Drags from a cell to another one."""
        self.hold(*start)
        self.aim(*end)
        self.lift()

    def draw(self, tool: str, *cells: tuple[int, int]) -> None:
        """Clicks cells with a tool."""
        self.click(f"#tool-{tool}")
        for cell in cells:
            self.press(*cell)

    def draw_mirror(self, start: tuple[int, int], end: tuple[int, int]) -> None:
        """Draws a mirror from a cell to another one."""
        self.click("#tool-mirror")
        self.drag(start, end)

    def save(self, name: str) -> None:
        """Saves the text, and waits until the page says so."""
        self.click("#save")
        self.await_text("status", f"Saved {name}.")

    def draft_count(self) -> int:
        """Returns how many drafts the browser keeps."""
        return int(self.script("return Object.keys(localStorage).filter((key) => key.startsWith('bbmlab draft'))"
                               ".length"))

    def choose(self, name: str, value: str) -> None:
        """Chooses a value of a list."""
        self.script("const list = document.getElementById(arguments[0]); list.value = arguments[1]; "
                    "list.dispatchEvent(new Event('change'))", name, value)

    def type_number(self, field: WebElement, number: str) -> None:
        """Types another number in a field."""
        self.script("arguments[0].focus(); arguments[0].select()", field)
        field.send_keys(number, Keys.ENTER)

    def touch(self, kind: str, *cells: tuple[float, float]) -> None:
        """Sends an event of fingers at cells: `Start`, `Move` or `End`."""
        await_frames(self.browser)
        left, top, wide, high = self.script("const b = document.getElementById('whole').getBoundingClientRect(); "
                                            "return [b.left, b.top, b.width, b.height]")
        points = []
        for number, cell in enumerate(cells):
            x, y = self.place(*cell)
            points.append({"x": left + wide / 2 + x, "y": top + high / 2 + y, "id": number})
        self.browser.execute_cdp_cmd("Input.dispatchTouchEvent", {"type": f"touch{kind}", "touchPoints": points})

    def tab_to(self, name: str) -> None:
        """Presses Tab until an element has the focus."""
        for _ in range(90):
            if self.script("window.focused = document.activeElement; return window.focused.id") == name:
                return
            self.press_keys(Keys.TAB)
            self.wait(lambda: self.script("return document.activeElement !== window.focused"), "Tab moves the focus")
        raise AssertionError(f"Tab does not come to {name}")

    def press_keys(self, *keys: str) -> None:
        """Presses keys one by one where the focus is.

        A key with Control or Alt is a tuple's text, such as Keys.CONTROL + "z".
        """
        chain = ActionChains(self.browser, duration=0)
        for key in keys:
            if len(key) == 2 and key[0] in (Keys.CONTROL, Keys.ALT, Keys.SHIFT):
                chain.key_down(key[0]).send_keys(key[1]).key_up(key[0])
            else:
                chain.send_keys(key)
        chain.perform()

    def answer(self, title: str, button: str) -> None:
        """Presses a button of the dialog with a title."""
        self.wait(lambda: self.script("return document.getElementById('dialog').open")
                  and self.text("dialog-title") == title, f"the dialog {title}")
        for found in self.browser.find_elements(By.CSS_SELECTOR, "#dialog-buttons button"):
            if found.text == button:
                found.click()
                return
        raise AssertionError(f"the dialog has no button {button}")

    def put(self, name: str, value: str) -> None:
        """Sets a field."""
        field = self.browser.find_element(By.ID, name)
        field.send_keys(Keys.CONTROL + "a")
        field.send_keys(value)
        if name in ("width", "height", "steps"):
            field.send_keys(Keys.TAB)

    def put_size(self, width: str, height: str, steps: str) -> None:
        """Sets the size and the steps of the layout."""
        for name, value in (("width", width), ("height", height), ("steps", steps)):
            self.put(name, value)

    def type_circuit(self, text: str) -> None:
        """Types a circuit."""
        self.put("circuit", text)
