#!/usr/bin/python3
"""browse_studio.py FOLDER PROGRAM LAB: uses the studio in headless Chromium, as `studio_driver.py` does.

It starts servers for files of FOLDER, and writes screenshots of two sizes, light and dark, to FOLDER. `collision.txt`
must be missing. BBMLAB_USES names the uses to run, all if it is missing.
"""
import json
import lzma
import os
import subprocess
import sys
import time
from pathlib import Path

from browse_page import Driven
from selenium.webdriver.common.by import By
from selenium.webdriver.common.keys import Keys
from studio_driver import Studio
from test_connecting import two_nots

TOP = Path(__file__).resolve().parents[2]
COLLISION = "circuit\ninput p\ninput q\ninteract p q -> a b c d\noutput a\noutput b\noutput c\noutput d\nend"
EMPTY = "circuit\nend\nlayout 24 16 6\nend\n"
CROSSED = "circuit\ninput p\noutput p\nend\nlayout 66 66 4\nin p 2 2\nout p 8 6\nend\n"
# Whether the canvas of the waveform has a size of its own, and is not empty.
HAS_WAVE = """const wave = document.getElementById("wave"), { width, height } = wave;
const empty = Object.assign(document.createElement("canvas"), { width, height });
return wave.clientHeight > 20 && width === wave.clientWidth && wave.toDataURL() !== empty.toDataURL();"""
# The page does 500 commands by its own buttons, keys and pointers, by a fixed sequence of random numbers.
COMMANDS = """
const { desk, tools, sketch } = bbmlab.studio, whole = document.getElementById("whole");
const { width, height } = desk.layout;
let state = 20261127, done = 0;
const draw = (count) => { state = state * 1664525 + 1013904223 >>> 0; return Math.floor(state / 2 ** 32 * count); };
const cell = () => [draw(width), draw(height)];
const point = (type, [x, y], buttons) => {
  const { left, top } = whole.getBoundingClientRect(), at = (value, from) => (value + 0.5 - from) * sketch.scale;
  const clientX = left + at(x, sketch.left), clientY = top + at(y, sketch.top);
  whole.dispatchEvent(new PointerEvent(type, { pointerId: 1, bubbles: true, buttons, clientX, clientY }));
};
const drag = (from, to) => { point("pointerdown", from, 1); point("pointermove", to, 1); point("pointerup", to, 0); };
const key = (name, more = {}) => {
  whole.dispatchEvent(new KeyboardEvent("keydown", { key: name, bubbles: true, ...more }));
};
const tool = (name) => document.getElementById(`tool-${name}`).click();
const near = ([x, y]) => [Math.min(width - 1, x + draw(8)), Math.min(height - 1, y + draw(8))];
const partCell = () => {
  const { parts } = desk.model;
  return parts.length ? parts[draw(parts.length)].box.slice(0, 2) : cell();
};
const put = (at) => drag(at, at), dragNear = (from) => drag(from, near(from));
const some = [
  () => { tool("mirror"); dragNear(cell()); },
  () => { tool(["ball", "waste"][draw(2)]); put(cell()); },
  () => { tool(["in", "out"][draw(2)]); put(cell()); },
  () => { tool("select"); drag(cell(), [width - 1, height - 1]); },
  () => { tool("select"); dragNear(partCell()); },
  () => key(["r", "x", "y"][draw(3)]), () => key("Delete"),
  () => key(["ArrowUp", "ArrowLeft", "ArrowDown", "ArrowRight"][draw(4)], { altKey: true }),
  () => key("c", { ctrlKey: true }),
  () => { key("v", { ctrlKey: true }); put(cell()); },
  () => { tool("erase"); dragNear(partCell()); },
  () => {
    tool("cell");
    const list = document.getElementById("cell-name");
    list.selectedIndex = draw(list.length);
    list.dispatchEvent(new Event("change"));
    put(cell());
    document.getElementById("dialog").close();
  },
  () => {
    const field = document.getElementById("steps");
    field.value = desk.layout.steps + draw(5);
    field.dispatchEvent(new Event("change"));
  },
  () => key("z", { ctrlKey: true }), () => key("y", { ctrlKey: true })];
while (done < 500) {
  const before = desk.model.text;
  some[draw(some.length)]();
  if (desk.model.text !== before) done += 1;
}
return desk.model.past.length;
"""


def draw_collision(studio: Studio) -> None:
    """Draws the collision of two balls from nothing, and gets a yes."""
    studio.start("collision.txt")
    start = time.monotonic()
    studio.put_size("16", "16", "6")
    studio.type_circuit(COLLISION)
    assert studio.is_shown("hint")
    studio.draw("in", (4, 4), (4, 11))
    studio.click("#tool-out")
    studio.wait(lambda: studio.text("time") == "6 of 6", "the output tool goes to the end")
    studio.click("#ends")
    studio.verdict("yes")
    print(f"from nothing to a yes for the collision: {time.monotonic() - start:.1f} s", file=sys.stderr)
    studio.await_text("truth", "All 4 rows are as the circuit says.")
    studio.await_text("who", "says bbmcheck")
    text = studio.layout_text()
    assert [line for line in text.split("\n") if line.startswith("in ")] == ["in p 4 4", "in p 2 2", "in q 4 11",
                                                                             "in q 2 13"], text
    studio.click("#tool-select")
    studio.shoot("collision")
    studio.click("#save")
    studio.wait(lambda: (studio.folder / "collision.txt").exists(), "the file is written")
    assert_saved_yes(studio, "collision.txt")


def assert_saved_yes(studio: Studio, name: str) -> None:
    """Asserts that the program says yes to a file that was written."""
    with (studio.folder / name).open("rb") as text:
        checked = subprocess.run([studio.program, "check"], stdin=text, capture_output=True, check=False)
    assert checked.returncode == 0 and checked.stdout.endswith(b"verdict yes\n"), checked.stdout


def drag_mirror(studio: Studio) -> None:
    """Drags a mirror of the Fredkin gate and sees no, undoes it and sees yes."""
    studio.begin("fredkin.txt", example("machine_fredkin"), "yes")
    first = studio.layout_text()
    mirror = studio.script("return bbmlab.studio.desk.model.parts.find(({ kind }) => kind === 'mirror').box")
    studio.click("#tool-select")
    studio.script("const badge = document.getElementById('badge'); window.badges = [];"
                  "new MutationObserver(() => window.badges.push(badge.className))"
                  ".observe(badge, { attributes: true })")
    studio.drag((mirror[0], mirror[1]), (mirror[0] + 4, mirror[1] + 2))
    assert studio.layout_text() != first, "the mirror is moved"
    taken = studio.verdict("no")
    badges = studio.script("return window.badges")
    assert badges[0] == "old" and badges[-1] == "no", f"an outdated verdict is grey: {badges}"
    studio.await_text("truth", "rows differ")
    # The table is another one whenever the worker has made it again.
    text, colour = studio.script("const cell = document.querySelector('#truth td.bad'); return [cell.textContent, "
                                 "getComputedStyle(cell).color]")
    assert "wanted" in text and colour == "rgb(179, 0, 12)", (text, colour)
    studio.wait(lambda: studio.script("return bbmlab.studio.sketch.faults.length") > 0, "faults are drawn")
    studio.shoot("fredkin_no")
    studio.click("#undo")
    taken = max(taken, studio.verdict("yes"))
    print(f"verdicts of the Fredkin gate: at most {taken:.2f} s after the edit", file=sys.stderr)
    assert studio.layout_text() == first


def example(name: str) -> str:
    """Returns the text of an example."""
    return (TOP / "examples" / f"{name}.txt").read_text()


def draw_by_keyboard(studio: Studio) -> None:
    """Draws the collision by keys alone, from the page's first element on, rotates it, and saves it."""
    studio.begin("keys.txt", "circuit\nend\nlayout 48 48 40\nend\n")
    studio.script("document.activeElement.blur()")
    for name, value in (("width", "16"), ("height", "16"), ("steps", "6")):
        studio.tab_to(name)
        studio.press_keys(Keys.CONTROL + "a", value, Keys.TAB)
    studio.tab_to("circuit")
    studio.press_keys(Keys.CONTROL + "a", COLLISION)
    studio.tab_to("whole")
    studio.press_keys("i", Keys.ENTER, *[Keys.ARROW_LEFT] * 16, *[Keys.ARROW_UP] * 16, *[Keys.ARROW_RIGHT] * 4,
                      *[Keys.ARROW_DOWN] * 4, Keys.ENTER,
                      *[Keys.ARROW_DOWN] * 7, Keys.ENTER, "o")
    studio.tab_to("ends")
    studio.press_keys(Keys.ENTER)
    studio.verdict("yes")
    studio.tab_to("whole")
    # A frame about everything by Enter at two corners, and then a turn by a quarter.
    studio.press_keys("v", *[Keys.ARROW_LEFT] * 16, *[Keys.ARROW_UP] * 16, Keys.ENTER, *[Keys.ARROW_RIGHT] * 16,
                      *[Keys.ARROW_DOWN] * 16, Keys.ENTER, "r")
    studio.wait(lambda: "in p 11 4" in studio.layout_text(), "everything is turned")
    studio.verdict("yes")
    studio.press_keys(Keys.ALT + Keys.ARROW_UP, Keys.ALT + Keys.ARROW_DOWN, Keys.CONTROL + "z", Keys.CONTROL + "z",
                      Keys.CONTROL + "z", Keys.CONTROL + "s")
    studio.wait(lambda: "in p 4 4" in (studio.folder / "keys.txt").read_text(), "Ctrl-S writes the file")


def refuse_circuit(studio: Studio) -> None:
    """Types a wrong circuit and sees the refusal at its line, as text; then the size's limits."""
    studio.begin("wrong.txt", example("not_gate"), "yes")
    good = studio.script("return document.getElementById('circuit').value")
    studio.type_circuit(good.replace("spill a", "spill <img src=x onerror=alert(1)>"))
    # While it is typed other lines are refused.
    studio.wait(lambda: "<img src=x onerror=alert(1)>" in studio.text("refusal")
                and studio.text("refusal").startswith("Line 6: "), "the refusal is shown")
    studio.wait(lambda: studio.script("return document.querySelector('#gutter .bad')?.textContent") == "\u2717 6",
                "the gutter marks the line")
    studio.verdict("refused")
    assert studio.browser.find_elements(By.CSS_SELECTOR, "img") == [], "a text of the page is HTML"
    studio.shoot("refused")
    studio.type_circuit(good)
    studio.wait(lambda: studio.text("refusal") == "", "the refusal is gone")
    studio.verdict("yes")
    studio.put("width", "9")
    studio.wait(lambda: studio.text("status") == "Width and height are even numbers from 2 to 512.",
                "the size is refused")


def place_mirrors(studio: Studio) -> None:
    """Mirrors snap, and say why; what is taken cannot be drawn over; a mirror is dragged to a place where it stays."""
    studio.begin("mirrors.txt", EMPTY)
    studio.draw_mirror((4, 4), (6, 4))
    found = studio.script("return bbmlab.studio.desk.model.parts.map(({ box }) => box)")
    assert found == [[5, 4, 4, 2]], found
    studio.hold(12, 4)
    studio.aim(13, 5)
    studio.await_text("status", "would fall apart, since its upper left cell is (12, 4)")
    studio.lift()
    studio.drag((5, 5), (6, 6))
    studio.await_text("status", "is taken by the mirror at (5, 4)")
    studio.click("#tool-select")
    studio.hold(6, 4)
    studio.aim(7, 10)
    studio.await_text("status", "would fall apart")
    studio.lift()
    assert all((x + y) % 2 == 1 for x, y, _,
               _ in studio.script("return bbmlab.studio.desk.model.parts.map(({ box }) => box)"))
    studio.type_circuit("circuit\nend")
    studio.script("const { desk } = bbmlab.studio; desk.model.setText('circuit\\nend\\nlayout 24 16 6\\nmirror 4 4 2 "
                  "2\\nend\\n')")
    assert "The mirror 4 4 2 2 falls apart: its upper left cell is (4, 4)" in studio.text("status"), studio.text(
        "status")


def change_selection(studio: Studio) -> None:
    """Selects by a frame, copies, pastes, rotates, reflects, moves and removes, and undoes all of it."""
    studio.begin("selection.txt", EMPTY)
    first = studio.layout_text()
    studio.draw_mirror((3, 2), (6, 3))
    studio.draw("ball", (4, 6))
    studio.click("#pair")
    studio.press(9, 7)
    studio.click("#pair")
    studio.draw("waste", (1, 13))
    assert "ball 9 7" in studio.layout_text() and "ball 11 7" not in studio.layout_text(), studio.layout_text()
    studio.click("#tool-select")
    studio.drag((0, 0), (10, 9))
    for button in ("#flip-x", "#flip-y", "#rotate"):
        before = studio.layout_text()
        studio.click(button)
        assert studio.layout_text() != before, button
    studio.keys(Keys.CONTROL + "c")
    studio.keys(Keys.CONTROL + "v")
    count = studio.layout_text().count("ball")
    studio.press(18, 6)
    assert studio.layout_text().count("ball") == 2 * count, studio.text("status")
    studio.keys(Keys.DELETE)
    assert studio.layout_text().count("ball") == count
    while studio.browser.find_element(By.ID, "undo").is_enabled():
        studio.click("#undo")
    assert studio.layout_text() == first
    while studio.browser.find_element(By.ID, "redo").is_enabled():
        studio.click("#redo")
    assert studio.layout_text().count("ball") == count


def insert_cell(studio: Studio) -> None:
    """Sees the ports of a standard cell and their times while placing it, and gets a yes."""
    studio.begin("cell.txt", "circuit\nend\nlayout 48 48 0\nend\n")
    studio.click("#hint-cell")
    studio.choose("cell-name", "not")
    studio.aim(24, 24)
    studio.wait(lambda: studio.text("status").startswith("not ") and studio.text("status").endswith("; 37 steps."),
                "the cell and its steps are named")
    ports = studio.script("return bbmlab.studio.sketch.ghost.ports.map(({ name, time }) => [name, time])")
    stops = [line.split(" ") for line in (TOP / "lab" / "cells" / "not.txt").read_text().split("\n")
             if line.startswith("stop ")]
    assert sorted(ports) == sorted(map(list, {(name, int(at)) for _, at, name, _, _ in stops})), ports
    studio.shoot("cell")
    studio.press(24, 24)
    studio.verdict("yes")
    assert not studio.is_shown("hint")


def draw_not_gate(studio: Studio) -> None:
    """Comes from nothing to a yes for a NOT gate by what the page says: by a ready cell, and by hand with a constant
    ball."""
    studio.begin("ready_not.txt", "circuit\nend\nlayout 48 48 40\nend\n")
    start = time.monotonic()
    studio.click("#hint-cell")
    type_cell(studio, "not")
    studio.press_keys(Keys.ENTER)
    studio.press(24, 24)
    studio.verdict("yes")
    print(f"a NOT gate of a ready cell: {time.monotonic() - start:.1f} s", file=sys.stderr)
    studio.begin("drawn_not.txt", "circuit\nend\nlayout 48 48 40\nend\n")
    start = time.monotonic()
    studio.click("#hint-circuit")
    studio.press_keys(Keys.CONTROL + "a", "circuit\ninput a\nsource 1 -> one\ninteract a one -> b c d e\noutput c\n"
                      "spill b\nspill d\nspill e\nend")
    studio.put_size("16", "16", "6")
    studio.draw("in", (4, 4))
    studio.draw("ball", (4, 11))
    studio.click("#tool-out")
    studio.click("#ends")
    studio.verdict("yes")
    print(f"a NOT gate by hand: {time.monotonic() - start:.1f} s", file=sys.stderr)
    studio.await_text("truth", "All 2 rows are as the circuit says.")


def type_cell(studio: Studio, name: str) -> None:
    """Types the name of a standard cell in the list that has the focus."""
    for _ in range(20):
        studio.press_keys(*name)
        if studio.script("return document.getElementById('cell-name').value") == name:
            return
        # The browser takes letters as one word if less than a second lies between them, which a slow machine may not
        # do. A word ends so too.
        time.sleep(2)
    raise AssertionError(f"the list does not go to {name}")


def take_fix(studio: Studio) -> None:
    """Takes a fix that was tried, by its button, and gets a yes; a line of the report shows its time, its inputs and
    its cell."""
    studio.begin("fix.txt", example("not_gate").replace("out b 4 4\nwaste 7 4\n", "out b 7 4\nwaste 4 4\n"), "no")
    studio.wait(lambda: studio.browser.find_elements(By.CSS_SELECTOR, "#report .fix"), "a fix is found")
    # The table is above the report, and moves it when it comes.
    studio.await_text("truth", "rows differ")
    studio.click("#report .fault")
    studio.wait(lambda: studio.text("time") == "3 of 3", "the line's time is shown")
    studio.shoot("fix")
    studio.click("#report .fix")
    studio.verdict("yes")
    studio.begin("none.txt", CROSSED.replace("layout 66 66 4", "layout 66 66 80").replace("out p 8 6", "out p 6 6"))
    studio.verdict("no certificate found", 120)


def see_ways(studio: Studio) -> None:
    """Sees the ways under all inputs and under some, the marks, the time and the waveform."""
    studio.begin("ways.txt", example("machine_fredkin"))
    studio.still()
    ways = "return [...bbmlab.studio.desk.survey.ways].length / 5"
    every = studio.script(ways)
    marks = studio.script("return bbmlab.studio.desk.survey.marks.filter((_, index) => index % 3 === 2)")
    assert {"bounce", "meet"} == set(marks), set(marks)
    names = studio.script("return bbmlab.studio.desk.player.names")
    assert [name for name in names if name not in studio.text("legend").split()] == [], studio.text("legend")
    studio.choose("ways", "on")
    for name in names:
        studio.click(f"#inputs input[value={name}]")
    studio.still()
    assert studio.script(ways) < every
    studio.choose("ways", "all")
    studio.script("const field = document.getElementById('slider'); field.value = 20; "
                  "field.dispatchEvent(new Event('input'))")
    studio.wait(lambda: studio.text("time").startswith("20 of "), "the slider's time is shown")
    studio.script("document.getElementById('wave-part').open = true")
    studio.wait(lambda: studio.script(HAS_WAVE), "the waveform is drawn")
    studio.click(f"#inputs input[value={names[0]}]")
    studio.shoot("ways")
    studio.script("document.getElementById('wave-part').open = false")


def draw_by_touch(studio: Studio) -> None:
    """Draws a mirror and a ball by a finger, and zooms by two."""
    studio.begin("touch.txt", EMPTY)
    studio.browser.execute_cdp_cmd("Emulation.setTouchEmulationEnabled", {"enabled": True, "maxTouchPoints": 5})
    studio.click("#tool-mirror")
    studio.touch("Start", (5, 4))
    studio.touch("Move", (7, 4))
    studio.touch("Move", (8, 5))
    studio.touch("End")
    studio.click("#tool-ball")
    studio.touch("Start", (13, 9))
    studio.touch("End")
    studio.wait(lambda: "mirror 5 4 4 2" in studio.layout_text() and "ball 13 9" in studio.layout_text(),
                f"drawn by touch: {studio.layout_text()}")
    before, text, count = studio.script("return bbmlab.studio.sketch.scale"), studio.layout_text(), studio.lift_count()
    studio.touch("Start", (10, 8))
    studio.touch("Start", (10, 8), (14, 8))
    studio.touch("Move", (8, 8), (16, 8))
    studio.touch("Move", (6, 8), (18, 8))
    studio.touch("End")
    studio.wait(lambda: studio.lift_count() >= count + 2, "the page has heard of both fingers")
    studio.browser.execute_cdp_cmd("Emulation.setTouchEmulationEnabled", {"enabled": False})
    assert studio.script("return bbmlab.studio.sketch.scale") > before, "two fingers zoom"
    assert studio.layout_text() == text, "two fingers draw nothing"


def do_many_commands(studio: Studio) -> None:
    """Does 500 random commands, and undoes them to the start."""
    studio.begin("many.txt", example("machine_fredkin"))
    first = studio.layout_text()
    start = time.monotonic()
    count = studio.script(COMMANDS)
    print(f"500 commands: {time.monotonic() - start:.1f} s, {count} to undo", file=sys.stderr)
    assert count > 100 and studio.layout_text() != first
    undone = studio.script("let count = 0; const undo = document.getElementById('undo'); while (!undo.disabled) { "
                           "undo.click(); count += 1; } return count")
    assert undone == count and studio.layout_text() == first, (undone, count)


def use_dialogs(studio: Studio) -> None:
    """Opens a file, begins from a template and from an example, and exports in each form; the exported page works
    without a network."""
    studio.keep_downloads()
    (studio.folder / "other.txt").write_text(example("head_on"))
    for old in studio.folder.glob("made_*"):
        old.unlink()
    studio.click("#open")
    choose(studio, "other.txt")
    studio.answer("Open a file of this folder", "open")
    studio.wait(lambda: studio.text("name") == "other.txt", "the file is opened")
    for number, name in enumerate(("not", "example fredkin_gate")):
        studio.click("#new")
        choose(studio, name)
        studio.script("document.querySelector('#dialog input').value = arguments[0]", f"made_{number}.txt")
        studio.answer("New layout", "make")
        studio.wait(lambda: studio.text("name") == f"made_{number}.txt", "the template is opened")
        studio.verdict("yes")
    for form, ending, word, last in (("svg", "svg", "<svg ", "</svg>"),
                                     ("golly", "rle", "rule = BBM-Margolus-emulated", "!"),
                                     ("page", "html", "Content-Security-Policy", "</html>")):
        studio.click("#export")
        choose(studio, form)
        studio.answer("Export", "export")
        path = studio.folder / f"made_1.{ending}"
        studio.wait(lambda: path.exists() and word in path.read_text() and path.read_text().rstrip().endswith(last),
                    f"the whole file {path.name}")
    studio.save("made_1.txt")
    assert (studio.folder / "made_1.txt").exists(), "the new file is written"
    studio.browser.get((studio.folder / "made_1.html").as_uri())
    studio.click("#last")
    studio.wait(lambda: studio.text("time") != "" and studio.text("time").split(" of ")[0]
                == studio.text("time").split(" of ")[1], "the page plays")


def choose(studio: Studio, value: str) -> None:
    """Chooses a value in the list of the dialog."""
    studio.wait(lambda: studio.script("return document.querySelector('#dialog[open] select') !== null"),
                "the dialog is open")
    studio.script("document.querySelector('#dialog select').value = arguments[0]", value)
    assert studio.script("return document.querySelector('#dialog select').value") == value


def keep_draft(studio: Studio) -> None:
    """The server is killed while the text is not saved; a new server's page offers the draft, and the text is as it
    was."""
    draft_mirror(studio, "draft.txt", example("not_gate"))
    studio.verdict("yes")
    studio.kill()
    studio.drag((1, 10), (2, 11))
    studio.wait(lambda: "does not answer" in studio.text("report"), "the page says that the server is gone")
    text = studio.layout_text()
    studio.start("draft.txt")
    assert studio.layout_text() == example("not_gate")
    studio.await_text("notice", "There is a draft of draft.txt")
    studio.click("#notice button")
    assert studio.layout_text() == text
    studio.click("#save")
    studio.wait(lambda: (studio.folder / "draft.txt").read_text().startswith(text.split("certificate")[0][:40])
                and studio.text("name") == "draft.txt", "saved")


def draft_mirror(studio: Studio, name: str, text: str | None = None) -> str:
    """Starts a server of a file, draws a mirror until the browser keeps a draft with it, and returns the address."""
    address = studio.start(name, text)
    studio.draw_mirror((9, 2), (10, 3))
    await_draft(studio)
    return address


def await_draft(studio: Studio) -> None:
    """Waits until the browser keeps a draft with the mirror that was drawn."""
    studio.wait(lambda: studio.script("return Object.keys(localStorage).some((key) => "
                                      "localStorage[key].includes('mirror 9 2'))"), "the draft is kept")


def offer_draft_again(studio: Studio) -> None:
    """A draft that was offered stays until it is answered, though the page is loaded again, and its buttons are not
    shown for another file."""
    (studio.folder / "draft.txt").write_text(example("not_gate"))
    (studio.folder / "other.txt").write_text(example("gate_and_mirror"))
    studio.start("draft.txt")
    studio.script("for (const key of Object.keys(localStorage)) if (key.startsWith('bbmlab draft')) "
                  "localStorage.removeItem(key)")
    studio.draw_mirror((9, 2), (10, 3))
    await_draft(studio)
    for _ in range(2):
        studio.browser.refresh()
        studio.await_text("notice", "There is a draft of draft.txt")
        # The page may put its own text, which is no draft, in the place of the draft when it was still for a while.
        studio.rest()
    studio.open("other.txt")
    studio.rest()
    assert not studio.is_shown("notice"), studio.text("notice")
    studio.open("draft.txt")
    studio.await_text("notice", "There is a draft of draft.txt")
    studio.click("#notice button")
    assert "mirror 9 2" in studio.layout_text()
    studio.save("draft.txt")
    assert studio.draft_count() == 0


def forget_old_draft(studio: Studio) -> None:
    """A draft that was offered and left is gone after another text was saved over the version from which it began."""
    draft_mirror(studio, "old.txt", example("not_gate"))
    studio.browser.get("about:blank")
    studio.start("old.txt")
    studio.await_text("notice", "There is a draft of old.txt")
    studio.draw_mirror((1, 8), (2, 9))
    studio.save("old.txt")
    studio.rest()
    assert not studio.is_shown("notice"), studio.text("notice")
    studio.browser.refresh()
    studio.wait(lambda: studio.text("name") == "old.txt", "the file is opened again")
    studio.rest()
    assert not studio.is_shown("notice"), studio.text("notice")
    assert studio.draft_count() == 0
    assert "mirror 1 8" in (studio.folder / "old.txt").read_text()


def ask_about_draft(studio: Studio) -> None:
    """A draft that began from another version of the file is offered as such, and saving it asks before it writes over
    the newer one."""
    newer = example("not_gate").replace("ball", "mirror 1 8 2 2\nball", 1)
    draft_mirror(studio, "versions.txt", example("not_gate"))
    studio.browser.get("about:blank")
    studio.start("versions.txt", newer)
    studio.await_text("notice", "that began from another version of the file")
    studio.click("#notice button")
    assert "mirror 9 2" in studio.layout_text() and "mirror 1 8" not in studio.layout_text()
    studio.click("#save")
    studio.answer("The file is another one now", "cancel")
    assert (studio.folder / "versions.txt").read_text() == newer


def duplicate_tab(studio: Studio) -> None:
    """A tab that is duplicated begins with the number of the other one, and takes a number and drafts of its own."""
    draft_mirror(studio, "twice.txt", example("not_gate"))
    first, number = studio.browser.current_window_handle, studio.script("return bbmlab.server.tab")
    studio.script("window.open(location.href)")
    studio.wait(lambda: len(studio.browser.window_handles) == 2, "the tab is open")
    studio.browser.switch_to.window(next(handle for handle in studio.browser.window_handles if handle != first))
    studio.wait(lambda: studio.text("name") == "twice.txt", "the second tab is open")
    assert studio.script("return bbmlab.server.tab") != number
    assert not studio.is_shown("notice"), "the draft of an open tab is not offered"
    assert studio.layout_text() == example("not_gate")
    studio.script("bbmlab.studio.desk.model.setText(arguments[0])", example("not_gate") + "# two\n")
    studio.wait(lambda: studio.draft_count() == 2, "each tab has a draft")
    studio.script("bbmlab.studio.desk.model.undo()")
    studio.wait(lambda: studio.draft_count() == 1, "the other draft stays")
    studio.browser.close()
    studio.browser.switch_to.window(first)
    studio.save("twice.txt")


def say_what_is_kept(studio: Studio) -> None:
    """Without a server the page says that the draft is kept only if it is, and nothing if there is none."""
    studio.start("kept.txt", example("not_gate"))
    studio.verdict("yes")
    studio.kill()
    ask = "const done = arguments[0]; bbmlab.server.request('files').then(({ error }) => done(error))"
    error = str(studio.browser.execute_async_script(ask))
    assert "kept" not in error and "does not answer" in error, error
    studio.draw_mirror((9, 2), (10, 3))
    assert "is kept in this browser" in studio.browser.execute_async_script(ask)
    studio.script("Storage.prototype.setItem = () => { throw new DOMException('full', 'QuotaExceededError'); }")
    studio.drag((1, 8), (2, 9))
    error = str(studio.browser.execute_async_script(ask))
    assert "is not kept in this browser" in error, error
    studio.script("bbmlab.studio.files.saved = bbmlab.studio.desk.model.text")


def keep_selection(studio: Studio) -> None:
    """The selection stays on its part while lines are typed, and another file begins without one.

    Words of the page can be copied.
    """
    studio.begin("chosen.txt", example("not_gate"), "yes")
    studio.click("#tool-select")
    studio.press(4, 4)
    chosen = "return bbmlab.studio.sketch.selected.map(({ kind, box }) => `${kind} ${box[0]} ${box[1]}`)"
    found = studio.script(chosen)
    assert len(found) == 1, found
    studio.script("const { model } = bbmlab.studio.desk; "
                  "model.setCircuitText(model.headText.replace('circuit', 'circuit\\n# one'), 'typing')")
    assert studio.script(chosen) == found, (found, studio.script(chosen))
    studio.press_keys(Keys.CONTROL + "c")
    # Another report would take the place of the words that are marked next.
    studio.verdict("yes")
    studio.script("getSelection().selectAllChildren(document.getElementById('report')); document.activeElement.blur()")
    # The key Control comes before.
    studio.script("addEventListener('keydown', (event) => { if (event.key === 'c') window.isTaken = "
                  "event.defaultPrevented; })")
    studio.press_keys(Keys.CONTROL + "c")
    studio.wait(lambda: studio.script("return window.isTaken !== undefined"), "the page hears of the key")
    assert studio.script("return window.isTaken") is False, "the browser copies the words"
    studio.script("getSelection().empty(); bbmlab.studio.files.saved = bbmlab.studio.desk.model.text")
    studio.begin("chosen_2.txt", example("gate_and_mirror"))
    assert studio.script(chosen) == []
    studio.keys(Keys.CONTROL + "c")
    studio.wait(lambda: studio.text("status") == "Nothing is selected.", "nothing is selected")
    assert studio.script("return bbmlab.studio.tools.clipboard.length") == 1


def ask_twice(studio: Studio) -> None:
    """A question that another one replaces is answered with null, and the other one waits for its button."""
    studio.script("window.answers = []; const { askInDialog, elementById } = bbmlab.parts;"
                  "elementById('dialog').addEventListener('close', () => { window.isClosed = true; }, { once: true });"
                  "for (const name of ['one', 'two']) askInDialog(name, [], [['ok', () => 7]]).then((value) => "
                  "window.answers.push([name, value]))")
    studio.wait(lambda: studio.script("return window.isClosed"), "the event of the first question comes")
    assert studio.script("return window.answers") == [["one", None]], studio.script("return window.answers")
    studio.answer("two", "ok")
    studio.wait(lambda: studio.script("return window.answers.length") == 2, "the second question is answered")
    assert studio.script("return window.answers")[1] == ["two", 7]


def use_two_tabs(studio: Studio) -> None:
    """Two tabs on one file: the second one that saves is asked, and writes over the file or under another name."""
    (studio.folder / "tabs_2.txt").unlink(missing_ok=True)
    address = draft_mirror(studio, "tabs.txt", example("not_gate"))
    first = studio.browser.current_window_handle
    studio.new_tab()
    studio.browser.get(address)
    studio.wait(lambda: studio.text("name") == "tabs.txt", "the second tab is open")
    studio.rest()
    assert not studio.is_shown("notice"), "the draft of an open tab is not offered"
    studio.draw_mirror((1, 8), (2, 9))
    studio.save("tabs.txt")
    assert "mirror 1 8" in (studio.folder / "tabs.txt").read_text(), "the second tab saved"
    studio.browser.close()
    studio.browser.switch_to.window(first)
    studio.click("#save")
    studio.answer("The file is another one now", "save under this name")
    studio.wait(lambda: (studio.folder / "tabs_2.txt").exists(), "saved under the other name")
    assert "mirror 9 2" in (studio.folder / "tabs_2.txt").read_text() and "mirror 1 8" in (
        studio.folder / "tabs.txt").read_text()


def let_in_once(studio: Studio) -> None:
    """The address lets one browser in.

    The page takes it out of its own address, and another browser with it is told what to do.
    """
    (studio.folder / "once.txt").write_text(example("not_gate"))
    address = studio.serve("once.txt")
    page = studio.folder / "once.html"
    page.write_text(f'<!DOCTYPE html><meta http-equiv="refresh" content="0; url={address}">')
    studio.browser.get(page.as_uri())
    studio.wait(lambda: studio.script("return document.getElementById('name')?.textContent") == "once.txt",
                "the page that leads to the address opens the file")
    assert studio.browser.current_url == address.split("#")[0], studio.browser.current_url
    studio.browser.refresh()
    studio.wait(lambda: studio.text("name") == "once.txt", "the page is loaded again")
    other = Driven(studio.folder, "--window-size=1400,850")
    try:
        other.browser.get(address)
        other.wait(lambda: "does not let this page in" in other.text("notice"), "the other browser is not let in")
        assert other.text("name") == "…", other.text("name")
        other.browser.save_screenshot(str(studio.folder / "not_let_in.png"))
    finally:
        other.browser.quit()


# The server says yes to the text of another file.
OTHER_YES = """const { server } = bbmlab, { request } = server, other = arguments[0];
window.askTruly = () => { server.request = request; };
server.request = (name, body) => request(name, name === "verdict" ? { ...body, text: other } : body);"""


def see_other_picture(studio: Studio) -> None:
    """A yes to a text that is not the one that is drawn is none, and the page says so."""
    studio.begin("drawn.txt", example("not_gate"), "yes")
    studio.script(OTHER_YES, example("not_gate"))
    studio.draw_mirror((9, 2), (10, 3))
    studio.verdict("no answer")
    assert "is not the one of this picture" in studio.text("report"), studio.text("report")
    studio.script("askTruly()")
    studio.draw_mirror((1, 8), (2, 9))
    studio.verdict("yes")
    studio.begin("joined.txt", example("not_gate").replace("\nin ", "\rin ").replace("\nout ", "\rout "), "refused")


def see_nothing_yet(studio: Studio) -> None:
    """An empty layout with an empty circuit is no green yes."""
    studio.begin("nothing.txt", EMPTY, "nothing yet")
    assert studio.script("return document.getElementById('badge').className") == "waiting"
    studio.shoot("nothing")
    studio.draw_mirror((9, 2), (10, 3))
    studio.verdict("yes")


def undo_numbers(studio: Studio) -> None:
    """Ctrl-Z in a field of a number undoes what was typed, then commands: the field always shows the layout's number.
    """
    studio.begin("numbers.txt", example("not_gate"))
    field = studio.browser.find_element(By.ID, "width")
    studio.click("#follow")
    for number in ("14", "16"):
        studio.type_number(field, number)
    assert "layout 16 12 3" in studio.layout_text()
    field.send_keys("9")
    field.send_keys(Keys.CONTROL, "z")
    value = field.get_property("value")
    assert value == "16" and "layout 16 12 3" in studio.layout_text(), value
    for number, word in (("14", "z"), ("12", "z"), ("14", "y")):
        field.send_keys(Keys.CONTROL, word)
        value, text = field.get_property("value"), studio.layout_text()
        assert value == number and f"layout {number} 12 3" in text, (value, text)
    studio.click("#follow")


def follow_turns(studio: Studio) -> None:
    """Outputs that are where the balls end follow them around a mirror, to another number of steps and back, by one
    command each."""
    machine = (TOP / "lab" / "cells" / "turn_left.txt").read_text().split("certificate ")[0]
    studio.begin("turns.txt", machine, "yes")
    before, field = studio.layout_text(), studio.browser.find_element(By.ID, "steps")
    steps = int(str(field.get_property("value")))
    for number in (2, steps):
        studio.type_number(field, str(number))
        assert f"layout 22 18 {number}\n" in studio.layout_text(), studio.text("status")
        studio.verdict("yes")
    assert sorted(studio.layout_text().split("\n")) == sorted(before.split("\n")), studio.layout_text()
    studio.click("#undo")
    studio.verdict("yes")
    studio.click("#undo")
    assert studio.layout_text() == before


def see_kind_of_no(studio: Studio) -> None:
    """The line of the badge says what kind of no it is, the explanation comes before the report's lines, and a fix has
    a button."""
    for name, words in (("plain_rim", "the rim is live at ("), ("plain_no", "the end is wrong at (")):
        studio.begin(f"{name}.txt", example(name), "no")
        studio.await_text("who", words)
    studio.begin("kind.txt", example("not_gate").replace("out b 4 4\nwaste 7 4\n", "out b 7 4\nwaste 4 4\n"), "no")
    studio.wait(lambda: studio.browser.find_elements(By.CSS_SELECTOR, "#report .fix"), "a fix is found")
    assert studio.script("return document.querySelector('#report .fix').textContent") == "apply this fix"
    assert studio.script("const [fix, fault] = ['.fix-box', '.fault'].map((name) => document.querySelector(`#report "
                         "${name}`)); "
                         "return Boolean(fix.compareDocumentPosition(fault) & Node.DOCUMENT_POSITION_FOLLOWING)")
    top, height = studio.script("return [document.querySelector('#report .fix').getBoundingClientRect().bottom, "
                                "innerHeight]")
    assert top < height, (top, height)
    studio.shoot("kind")
    studio.click("#report .fix")
    studio.verdict("yes")


def enlarge_for_cell(studio: Studio) -> None:
    """A cell that is larger than the layout is put after the user agrees to make the layout larger."""
    studio.begin("enlarge.txt", EMPTY)
    studio.choose("cell-name", "not")
    studio.click("#tool-cell")
    studio.press(9, 9)
    studio.answer("The cell is larger than the layout", "cancel")
    assert studio.layout_text() == EMPTY
    studio.press(9, 9)
    studio.answer("The cell is larger than the layout", "make the layout 44 by 44")
    studio.verdict("yes")
    assert "layout 44 44 37" in studio.layout_text()


def choose_spelling(studio: Studio) -> None:
    """A text with comments is saved with them, or in the one spelling, as the user says."""
    text = "# by hand\n" + example("not_gate")
    studio.begin("free.txt", text, "yes")
    studio.draw_mirror((9, 2), (10, 3))
    studio.click("#save")
    studio.answer("How to write the text", "write it as it is")
    studio.wait(lambda: "mirror 9 2 2 2" in (studio.folder / "free.txt").read_text(), "saved as it is")
    assert (studio.folder / "free.txt").read_text().startswith("# by hand\n")
    studio.begin("free_2.txt", text, "yes")
    studio.click("#save")
    studio.answer("How to write the text", "write the one spelling, without comments")
    studio.wait(lambda: studio.text("status") == "Saved free_2.txt.", "saved in the one spelling")
    assert_saved_yes(studio, "free_2.txt")


# Each answer of the server waits until `answerNow` is called with its name, or `answerAll`.
HOLD = """const { server } = bbmlab, { request } = server;
window.held = [];
const go = (isWanted) => {
  for (const one of window.held.splice(0)) {
    if (isWanted(one)) one.done();
    else window.held.push(one);
  }
};
window.answerNow = (wanted) => go(({ name }) => name === wanted);
window.answerAll = () => { server.request = request; go(() => true); };
server.request = async (name, body) => {
  const answer = await request(name, body);
  await new Promise((done) => window.held.push({ name, done }));
  return answer;
};"""


def answer_late(studio: Studio) -> None:
    """Answers of the server that come late change nothing: a verdict on a text that was undone, and the end of a save
    after another file was opened."""
    def await_held(name: str) -> None:
        studio.wait(lambda: studio.script("return window.held.some(({ name }) => name === arguments[0])", name),
                    f"the server answers {name}")

    studio.begin("late.txt", example("not_gate"), "yes")
    studio.script(HOLD)
    studio.click("#tool-erase")
    studio.press(7, 7)
    await_held("verdict")
    studio.click("#undo")
    studio.wait(lambda: studio.is_verdict("yes"), "the verdict that was known")
    studio.script("answerNow('verdict')")
    studio.rest()
    assert studio.is_verdict("yes"), studio.text("badge")
    (studio.folder / "late_2.txt").write_text(example("head_on"))
    studio.script("const { files } = bbmlab.studio; files.save(); files.openFile('late_2.txt')")
    await_held("spelling")
    await_held("open")
    studio.script("answerNow('spelling')")
    await_held("save")
    studio.script("answerNow('open')")
    studio.wait(lambda: studio.text("name") == "late_2.txt", "the other file is opened")
    studio.script("answerNow('save')")
    studio.rest()
    assert studio.text("name") == "late_2.txt", studio.text("name")
    studio.script("answerAll()")
    studio.rest()
    assert studio.text("name") == "late_2.txt", studio.text("name")
    assert (studio.folder / "late.txt").read_text().startswith(example("not_gate"))


def see_dark(studio: Studio) -> None:
    """Shoots a no in dark colours."""
    studio.begin("dark.txt", example("machine_fredkin").replace("mirror 2", "mirror 4", 1))
    studio.wait(lambda: studio.script("return bbmlab.studio.verdicts.isCurrent"), "there is a verdict")
    studio.still()
    studio.scheme("dark")
    studio.shoot("dark")
    studio.scheme("light")


def enlarge_at_sides(studio: Studio) -> None:
    """Adds columns and rows at the sides by the dialog: the parts move by them, and the verdict is asked again."""
    studio.begin("wider.txt", example("fredkin_gate"), "yes")
    width, height = (int(studio.script(f"return document.getElementById('{name}').value"))
                     for name in ("width", "height"))
    studio.click("#enlarge")
    studio.script("const sides = [...document.querySelectorAll('#dialog input')]; [4, 6, 8, 2].forEach((count, index) "
                  "=> { sides[index].value = count; });")
    studio.answer("Enlarge the layout", "enlarge")
    studio.await_text("status", "Enlarged.")
    assert f"layout {width + 12} {height + 8} " in studio.layout_text()
    studio.verdict("yes")
    studio.click("#undo")
    assert studio.layout_text() == example("fredkin_gate"), "undo takes it back"


def route_circuit(studio: Studio) -> None:
    """Routes the circuit of a text in the background: a cancelled search changes nothing, and a found layout gets a yes
    and can be undone."""
    text = "circuit\ninput p\ninput q\nswitch p q -> a b c\noutput a\noutput b\nspill c\nend\nlayout 48 48 40\nend\n"
    studio.begin("routed.txt", text)
    studio.script("bbmlab.studio.router.routeCircuit(600, 3)")
    studio.wait(lambda: "Routing since" in studio.text("routing") or "Begins" in studio.text("routing"),
                "the search is shown")
    studio.script("bbmlab.server.request('unroute')")
    studio.wait(lambda: not studio.is_shown("routing"), "the search has ended", 120)
    if "cancelled" in studio.text("status"):
        assert studio.layout_text() == text, "nothing was taken"
    else:
        # It was found before it was cancelled.
        studio.click("#undo")
    studio.click("#route")
    studio.answer("Route the circuit", "route")
    studio.wait(lambda: "Routed." in studio.text("status"), "the layout is found", 240)
    studio.verdict("yes", 120)
    assert "switch p q -> a b c" in studio.layout_text() and "mirror" in studio.layout_text()
    studio.rest()
    studio.browser.save_screenshot(str(studio.folder / "routed.png"))
    studio.click("#undo")
    assert studio.layout_text() == text, "undo brings the old text back"


def connect_ports(studio: Studio) -> None:
    """Presses an output and then an input: mirrors lead the ball there, the verdict is yes, and undo takes it back. A
    loop is said, and changes nothing."""
    text = two_nots(200, 160, (20, 60), (120, 70))
    studio.begin("connected.txt", text)
    studio.verdict("yes", 60)
    studio.click("#tool-connect")
    studio.press(124, 96)
    studio.await_text("status", "This is no output")
    studio.press(61, 62)
    studio.await_text("status", "Press the input to which the ball of z is to fly")
    studio.browser.save_screenshot(str(studio.folder / "connecting.png"))
    studio.press(124, 96)
    studio.wait(lambda: "the program says yes" in studio.text("status"), "the ball is led", 120)
    studio.verdict("yes", 60)
    made = studio.layout_text()
    assert "switch z l -> e x q" in made and "in b" not in made and "out z" not in made, made
    studio.rest()
    studio.browser.save_screenshot(str(studio.folder / "connected.png"))
    studio.click("#undo")
    assert studio.layout_text() == text, "undo brings the old text back"
    studio.press(61, 62)
    studio.press(24, 86)
    studio.wait(lambda: "loop" in studio.text("status"), "the loop is said", 60)
    assert studio.layout_text() == text, "a loop changes nothing"


def see_large(studio: Studio) -> None:
    """A machine of 832 by 832 cells: the fit shows all of it with its ways, the small picture leads elsewhere, and an
    edit changes the picture there."""
    studio.begin("machine.txt",
                 lzma.decompress((TOP / "examples" / "machines" / "adder_4.txt.xz").read_bytes()).decode("ascii"))
    studio.verdict("yes", 120)
    studio.still()
    studio.rest()
    count = ("const { width, height } = document.getElementById('whole'); return new Set(new "
             "Uint32Array(document.getElementById('whole').getContext('2d').getImageData(40, 30, width - 50, height - "
             "40).data.buffer)).size")
    assert studio.script(count) > 50, "the ways are there"
    assert not studio.is_shown("map"), "everything is shown"
    for _ in range(12):
        studio.click("#in")
    studio.rest()
    assert studio.is_shown("map"), "the small picture shows where one is"
    before = studio.script("return bbmlab.studio.sketch.seenRange()")
    studio.browser.find_element(By.ID, "map").click()
    studio.script("bbmlab.studio.sketch.tiles.made.clear(); bbmlab.studio.sketch.centreOn(100, 100, "
                  "bbmlab.studio.sketch.scale)")
    studio.rest()
    assert studio.script("return bbmlab.studio.sketch.seenRange()") != before
    studio.script("bbmlab.studio.sketch.centreOn(300, 300, 1)")
    studio.rest()
    made = studio.script("return [...bbmlab.studio.sketch.tiles.made.values()].length")
    kept = studio.script("const { sketch, desk } = bbmlab.studio, old = new Set(sketch.tiles.made.values()); "
                         "desk.model.addParts([{ kind: 'mirror', name: null, box: [1, 2, 2, 2], line: -1 }]); "
                         "return [...sketch.tiles.made.values()].filter((tile) => old.has(tile)).length")
    assert kept == made, f"{kept} of {made} tiles are kept after a mirror was added: it is drawn over them"
    removed = studio.script("const { sketch, desk } = bbmlab.studio; desk.model.removeParts([desk.model.parts.find(({ "
                            "box }) => box[0] === 1 && box[1] === 2).line]); "
                            "return sketch.tiles.made.size")
    assert 0 < removed < made, f"{removed} of {made} tiles are kept after a mirror at a corner was removed"
    studio.still()
    studio.rest()
    studio.browser.save_screenshot(str(studio.folder / "large.png"))


USES = [draw_collision, drag_mirror, draw_by_keyboard, refuse_circuit, place_mirrors, change_selection, insert_cell,
        draw_not_gate, take_fix, see_ways, draw_by_touch, do_many_commands, choose_spelling, answer_late, see_dark,
        use_dialogs, keep_draft, offer_draft_again, keep_selection, ask_twice, use_two_tabs, let_in_once,
        see_other_picture, forget_old_draft, ask_about_draft, duplicate_tab, say_what_is_kept, see_nothing_yet,
        undo_numbers, follow_turns, see_kind_of_no, enlarge_for_cell, enlarge_at_sides, route_circuit, connect_ports,
        see_large]


def run_uses(studio: Studio, wanted: list[str]) -> list[str]:
    """Runs the uses that are wanted, and returns the errors of the console, apart from those that a killed server
    leaves."""
    errors: list[str] = []
    for use in USES:
        if wanted and use.__name__ not in wanted:
            continue
        if studio.server is None:
            (studio.folder / "start.txt").write_text(EMPTY)
            studio.start("start.txt")
        begun = time.monotonic()
        use(studio)
        print(f"{use.__name__}: done in {time.monotonic() - begun:.1f} s", file=sys.stderr, flush=True)
        errors += [message for message in studio.errors("SEVERE") if not is_expected(message)]
    return errors


def is_expected(message: str) -> bool:
    """Whether an error says that no server answers, or that one ended in the middle of an answer: each `start` kills
    the one before.

    A second tab with an address that was used is told that its token counts no more, and goes on with the key of the
    first.
    """
    return ("net::ERR_" in message
            or "/api/enter - Failed to load resource: the server responded with a status of 403" in message)


def main() -> int:
    """Uses the studio, and returns the exit status: 1 where the console has an error that is none of the killed
    server's."""
    folder = Path(sys.argv[1])
    studio = Studio(folder, sys.argv[2], sys.argv[3])
    try:
        logged = run_uses(studio, os.environ.get("BBMLAB_USES", "").split())
    except Exception:
        studio.browser.save_screenshot(str(folder / "failed.png"))
        print(json.dumps(studio.browser.get_log("browser"))[:3000], file=sys.stderr)
        raise
    finally:
        studio.browser.quit()
        studio.kill()
    for message in logged:
        print(message, file=sys.stderr)
    return 1 if logged else 0


if __name__ == "__main__":
    sys.exit(main())
