"""What a page has to do in a browser: each check plays on a page, and says what is otherwise, or nothing."""
import time

PATIENCE = 60
# Within how many milliseconds a page that is stopped has to say so.
STOPS_IN = 500
LEAST_BUTTON = 40
# At most this many characters of the state of a page are printed.
MOST_TOLD = 1000
# A ground that is darker than that, of 255, is dark.
MIDDLE = 128

STATE = """
const by = (id) => document.getElementById(id);
const rows = Array.from(by("board").rows, (row) => Array.from(row.cells, (cell) => cell.textContent).join(""));
return {
  rows, title: by("title").textContent, heading: document.title, level: by("level").textContent, said: by("said").textContent,
  fault: by("fault").textContent, textFault: by("text-fault").textContent, keys: by("keys").value,
  waits: !by("next").hidden, isStopped: !by("stopped").hidden, works: !by("stop").disabled, broken: window.isBroken,
};
"""


class Page:
    """A page that is open in a browser."""

    def __init__(self, browser, address):
        self.browser = browser
        browser.open(address)

    def state(self):
        return self.browser.run(STATE)

    def until(self, is_so, what):
        """Waits until the state is so. The state, or an error that tells what was waited for."""
        end = time.monotonic() + PATIENCE
        while time.monotonic() < end:
            state = self.state()
            if is_so(state):
                return state
            time.sleep(0.02)
        raise Otherwise(f"{what} didn't come: {str(state)[:MOST_TOLD]}")

    def click(self, identifier):
        self.browser.run("document.getElementById(values[0]).click()", identifier)

    def choose(self, text):
        """Puts a text into the box of the game's text, and plays it."""
        self.browser.run("document.getElementById('text').value = values[0]; document.getElementById('play').click()", text)

    def replay(self, keys):
        self.browser.run("document.getElementById('keys').value = values[0]; document.getElementById('replay').click()", keys)

    def middle(self, selector):
        """The middle of an element, and its width and height."""
        return self.browser.run("const box = document.querySelector(values[0]).getBoundingClientRect();"
                                "return [box.x + box.width / 2, box.y + box.height / 2, box.width, box.height]", selector)

    def touch(self, selector):
        self.browser.run("document.querySelector(values[0]).scrollIntoView({ block: 'nearest' })", selector)
        self.browser.touch(*self.middle(selector)[:2])


class Otherwise(Exception):
    """A page doesn't do what it has to."""


def expect(is_so, what):
    if not is_so:
        raise Otherwise(what)


def expect_rows(page, rows, what):
    page.until(lambda state: state["rows"] == rows, f"{what}: {rows}")


def past_hello(page):
    page.until(lambda state: state["said"] == "Hello." and state["waits"], "the first message")
    page.browser.press("w")
    page.browser.press("x")
    return page.until(lambda state: state["rows"] == ["######", "#.P*+#", "######"] and not state["waits"], "the first board")


def check_keys(page):
    """Messages, moves, undo and restart by the keyboard; capital letters are the same keys."""
    state = past_hello(page)
    expect((state["title"], state["heading"], state["level"]) == ("Push it", "Push it", "Level 1 of 2"), f"the title and level: {state}")
    expect(state["keys"] == "x", f"a key that a message ignores isn't played: {state['keys']!r}")
    page.browser.press("ArrowLeft")
    expect_rows(page, ["######", "#P.*+#", "######"], "the board after a step to the left")
    page.browser.press("z")
    expect_rows(page, ["######", "#.P*+#", "######"], "the board after undo")
    page.browser.press("A")
    page.browser.press("r")
    page.until(lambda state: state["rows"][1:2] == ["#.P*+#"] and state["keys"] == "xazar", "the restart")
    page.browser.press("d")
    page.until(lambda state: state["said"] == "Well done." and state["waits"], "the message after the first level")


def check_names(page):
    """Cells and glyphs have names."""
    past_hello(page)
    names = page.browser.run("return Array.from(document.querySelectorAll('#board tr:nth-child(2) td'), (cell) => cell.ariaLabel)")
    expect(names == ["Wall", "Background", "Player", "Crate", "Goal", "Wall"], f"names of cells: {names}")
    glyphs = page.browser.run("return Array.from(document.querySelectorAll('#glyphs > *'), (part) => part.textContent)")
    expect(glyphs[:4] == [".", "Background", "P", "Player"], f"names of glyphs: {glyphs}")
    roles = page.browser.run("return ['said', 'fault', 'text-fault'].map((id) => document.getElementById(id).getAttribute('role'))")
    expect(roles == ["status", "alert", "alert"], f"what is announced: {roles}")


def check_touch(page):
    """The same by touch, on a phone: nothing is wider than the window, and buttons are large enough."""
    page.browser.look(360, 740, is_phone=True)
    page.until(lambda state: state["waits"], "the first message")
    page.touch("#next")
    page.until(lambda state: state["rows"] != [], "the first board")
    for key, middle in (("a", "#P.*+#"), ("d", "#.P*+#"), ("z", "#P.*+#"), ("r", "#.P*+#")):
        page.touch(f"[data-key={key}]")
        page.until(lambda state, middle=middle: state["rows"][1] == middle, f"{middle} after a touch of {key}")
    wide = page.browser.run("return [document.documentElement.scrollWidth, innerWidth]")
    expect(wide[0] <= wide[1], f"the page is wider than the window: {wide}")
    for key in "wasdxzr":
        expect(min(page.middle(f"[data-key={key}]")[2:]) >= LEAST_BUTTON, f"the button of {key} is too small")
    page.browser.look(1000, 800)


def check_replay(page):
    """Keys that are pasted are played, an end is told, and the game begins anew."""
    page.until(lambda state: state["waits"], "the first message")
    page.replay("xdx")
    page.until(lambda state: state["level"] == "Level 2 of 2" and state["keys"] == "xdx", "level 2 by pasted keys")
    page.browser.press("s")
    page.until(lambda state: state["rows"][1:2] == ["#...om.#"] and state["keys"] == "xdxs", "a key after those that were pasted")
    page.replay("xdx da\x1b[Cz q")
    page.until(lambda state: state["said"] == "Quit." and state["isStopped"], "the end")
    page.click("anew")
    past_hello(page)


def check_levels(page):
    """A game begins at any level, where the player has the option for it."""
    past_hello(page)
    if page.browser.run("return document.getElementById('level-part').hidden"):
        return "but the player has no option --level"
    page.browser.run("document.getElementById('levels').value = '2'; document.getElementById('begin').click()")
    page.until(lambda state: state["rows"][1:2] == ["#o...m.#"] and state["keys"] == "", "level 2")
    page.replay("a")
    page.until(lambda state: state["rows"][2:3] == ["#P.*..+#"] and state["level"] == "Level 2 of 2", "the same board after a key")
    page.click("begin")
    page.until(lambda state: state["keys"] == "" and state["level"] == "Level 2 of 2", "level 2 once more")
    return ""


# The rows of the roller that a page shows from now on.
WATCH = """
window.seen = [];
const row = () => Array.from(document.querySelectorAll('#board tr:nth-child(2) td'), (cell) => cell.textContent).join('');
new MutationObserver(() => window.seen.push(row())).observe(document.getElementById('board'), { childList: true, subtree: true });
"""


def check_frames(page, is_still):
    """Frames of one key come one after the other; where motion is to be reduced the last one comes alone."""
    page.browser.look(1000, 800, is_still=is_still)
    page.until(lambda state: state["waits"], "the first message")
    page.replay("xdx")
    page.until(lambda state: state["rows"][1:2] == ["#o...m.#"], "the board of level 2")
    page.browser.run(WATCH)
    page.browser.run("document.activeElement.blur()")
    page.browser.press("s")
    page.until(lambda state: state["rows"][1:2] == ["#...om.#"], "the roller at its end")
    seen = list(dict.fromkeys(page.browser.run("return window.seen")))
    wanted = ["#...om.#"] if is_still else ["#.o..m.#", "#..o.m.#", "#...om.#"]
    page.browser.look(1000, 800)
    expect(seen == wanted, f"the frames that were seen: {seen}")


def check_colours(page):
    """The page is dark where the reader wants that, and light else."""
    canvas = """const probe = document.createElement('p'); document.body.append(probe); probe.style.color = 'Canvas';
        const colour = getComputedStyle(probe).color; probe.remove(); return Number(/\\d+/.exec(colour)[0])"""
    for is_dark in (True, False):
        page.browser.look(1000, 800, is_dark=is_dark)
        end = time.monotonic() + PATIENCE
        while (page.browser.run(canvas) < MIDDLE) != is_dark:
            expect(time.monotonic() < end, f"the page isn't {'dark' if is_dark else 'light'}")
            time.sleep(0.05)


def check_fault(page, told):
    """A text with a fault is told as the player tells it, and the game before goes on; one without is played."""
    past_hello(page)
    faulty, good = told
    page.choose(faulty[0])
    page.until(lambda state: state["textFault"].rstrip() == faulty[1].rstrip(), f"the fault {faulty[1]!r}")
    page.browser.run("document.activeElement.blur()")
    page.browser.press("a")
    expect_rows(page, ["######", "#P.*+#", "######"], "the game before, after a fault")
    page.choose(good)
    page.until(lambda state: state["title"] == "Far and wide" and not state["textFault"], "the other text")


def check_stop(page, endless):
    """A game that never ends is stopped by a button, and can be gone on with."""
    page.until(lambda state: state["waits"], "the first message")
    page.choose(endless)
    page.until(lambda state: state["title"] == "Counting" and len(state["rows"]) == 250, "the endless game")
    page.browser.run("document.activeElement.blur()")
    page.browser.press("d")
    page.until(lambda state: state["keys"] == "d", "a first key")
    page.browser.press("x")
    page.until(lambda state: state["works"], "the button that stops")
    took = page.browser.run("""const start = performance.now(); document.getElementById('stop').click();
        while (document.getElementById('stopped').hidden) await new Promise((done) => setTimeout(done));
        return performance.now() - start""")
    expect(took <= STOPS_IN, f"it stopped after {took:.0f} ms")
    page.click("shorter")
    page.until(lambda state: state["keys"] == "d" and not state["isStopped"] and len(state["rows"]) == 250, "the game before the key")
    return f"stopped after {took:.0f} ms"


# Presses buttons one after the other, each when the one before has been answered and drawn. Milliseconds for a key, in the mean.
TYPE = """
const box = document.getElementById('keys'), channel = new MessageChannel();
const turn = () => new Promise((done) => { channel.port2.onmessage = done; channel.port1.postMessage(0); });
const start = performance.now();
for (const key of values[0]) {
  const length = box.value.length;
  document.querySelector(`[data-key=${key}]`).click();
  while (box.value.length === length) await turn();
  document.body.getBoundingClientRect();
}
return (performance.now() - start) / values[0].length;
"""


def check_large(page):
    """A board that is larger than the window follows the player."""
    page.until(lambda state: len(state["rows"]) == 100, "the large board")
    page.browser.look(400, 500)
    inside = """const frame = document.getElementById('frame').getBoundingClientRect();
        const cell = Array.from(document.querySelectorAll('#board td')).find((one) => one.textContent === 'P').getBoundingClientRect();
        return cell.left >= frame.left && cell.right <= frame.right && cell.top >= frame.top && cell.bottom <= frame.bottom;"""
    page.replay("d" * 60 + "s" * 60)
    page.until(lambda state: state["keys"].count("s") == 60, "the player in the middle")
    time.sleep(0.3)
    expect(page.browser.run(inside), "the player isn't in sight")
    page.browser.look(1000, 800)
    return f"a key in {page.browser.run(TYPE, 'dadada'):.1f} ms on a board of 100 by 100"


def check_hostile(page, title):
    """A text is shown as it stands, and does nothing; nothing is asked of anybody."""
    state = page.until(lambda state: len(state["rows"]) == 4, "the board of the hostile text")
    expect(state["title"] == title and state["heading"] == title.strip(), f"the title: {state['title']!r}, {state['heading']!r}")
    page.browser.press("d")
    state = page.until(lambda state: state["waits"], "the hostile message")
    said = state["said"]
    expect("<img src=x" in said and "\u2067" not in said and "\x07" not in said, f"the message: {said!r}")
    expect(state.get("broken") is None, f"a text did something: {state}")
    expect(page.browser.run("return document.images.length + document.scripts.length") <= 2, "an element came from a text")
    asked = page.browser.run("return performance.getEntriesByType('resource').map((one) => one.name)")
    asked = [name for name in asked if not name.startswith("blob:")]
    expect(asked == [], f"the page asked for {asked}")


def check_list(page, count):
    """A page of many games has a list, and each game an address."""
    links = page.browser.run("return Array.from(document.querySelectorAll('#games a'), (link) => link.getAttribute('href'))")
    expect(len(links) == count, f"{len(links)} games in the list")
    page.browser.run("document.querySelector('#games a[href=\"#tug\"]').click()")
    page.until(lambda state: state["rows"] != [] or state["waits"], "a game of the list")
    expect(page.browser.run("return document.getElementById('list').hidden"), "the list isn't left")
    page.browser.run("history.back(); await new Promise((done) => setTimeout(done, 300))")
    expect(not page.browser.run("return document.getElementById('list').hidden"), "there is no way back to the list")


def measure(page, keys):
    """When the first board is shown, and the cost of a key with its drawing."""
    page.until(lambda state: state["rows"] != [], "the first board")
    first = page.browser.run("return performance.getEntriesByName('board')[0].startTime")
    return f"first board after {first:.0f} ms, a key in {page.browser.run(TYPE, keys):.2f} ms with its drawing"
