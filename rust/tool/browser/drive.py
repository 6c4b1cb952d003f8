"""Uses the page of `rollmap serve` in headless Chromium, by its debugging pipe, and looks whether it does what it should.

usage: drive.py ROLLMAP FOLDER
"""

import base64
import contextlib
import json
import os
import random
import re
import subprocess
import sys
import tempfile
import time

ROLLMAP, SHOTS = sys.argv[1], sys.argv[2]
WAIT = 15.0
failures = []


def check(what, holds):
    print(("ok      " if holds else "FAILED  ") + what)
    if not holds:
        failures.append(what)


class Browser:
    """Chromium, spoken to by messages that end in a zero byte on two pipes."""

    def __init__(self):
        to_browser, self.out = os.pipe()
        self.inp, from_browser = os.pipe()
        self.profile = tempfile.TemporaryDirectory(ignore_cleanup_errors=True)
        # The browser reads from 3 and writes to 4, whichever numbers the pipes have here.
        redirect = f"exec 3<&{to_browser} 4>&{from_browser}; exec \"$@\""
        command = ["chromium", "--headless=new", "--disable-gpu", "--hide-scrollbars", "--no-first-run",
                   "--disable-background-networking", "--disable-component-update", "--remote-debugging-pipe",
                   f"--user-data-dir={self.profile.name}", "about:blank"]
        if os.geteuid() == 0:
            command.insert(1, "--no-sandbox")
        self.process = subprocess.Popen(["bash", "-c", redirect, "bash", *command], pass_fds=(to_browser, from_browser),
                                        stdout=subprocess.DEVNULL, stderr=subprocess.DEVNULL)
        os.close(to_browser)
        os.close(from_browser)
        self.rest, self.last, self.session, self.events = b"", 0, None, []

    def receive(self):
        while b"\0" not in self.rest:
            piece = os.read(self.inp, 1 << 16)
            if not piece:
                raise RuntimeError("the browser has gone")
            self.rest += piece
        message, self.rest = self.rest.split(b"\0", 1)
        return json.loads(message)

    def call(self, method, **params):
        self.last += 1
        message = {"id": self.last, "method": method, "params": params}
        if self.session:
            message["sessionId"] = self.session
        os.write(self.out, json.dumps(message).encode() + b"\0")
        while True:
            answer = self.receive()
            if answer.get("id") == self.last:
                if "error" in answer:
                    raise RuntimeError(f"{method}: {answer['error']}")
                return answer["result"]
            self.events.append(answer)

    def open(self, address, width=1440, height=900):
        self.session = None
        target = self.call("Target.createTarget", url="about:blank")["targetId"]
        self.session = self.call("Target.attachToTarget", targetId=target, flatten=True)["sessionId"]
        for domain in ("Page", "Runtime", "Log", "Accessibility"):
            self.call(f"{domain}.enable")
        self.call("Emulation.setDeviceMetricsOverride", width=width, height=height, deviceScaleFactor=1, mobile=False)
        self.events.clear()
        self.call("Page.navigate", url=address)
        self.until("document.readyState === 'complete' && document.querySelectorAll('#rows tbody tr').length > 0")

    def js(self, expression):
        result = self.call("Runtime.evaluate", expression=expression, returnByValue=True, awaitPromise=True)
        if "exceptionDetails" in result:
            raise RuntimeError(f"{expression}: {result['exceptionDetails']}")
        return result["result"].get("value")

    def until(self, expression):
        end = time.monotonic() + WAIT
        while time.monotonic() < end:
            if self.js(expression):
                return True
            time.sleep(0.03)
        return False

    def rest_of_view(self):
        """Waits until no answer is on its way, and the table has followed."""
        self.until("!asking && !again")
        time.sleep(0.45)
        self.until("!asking && !again")

    def key(self, key, modifiers=0):
        codes = {"Enter": 13, "Tab": 9, "Escape": 27, "ArrowLeft": 37, "ArrowUp": 38, "ArrowRight": 39, "ArrowDown": 40,
                 "PageUp": 33, "PageDown": 34}
        params = {"key": key, "modifiers": modifiers, "windowsVirtualKeyCode": codes.get(key, ord(key[0].upper()))}
        if key == "Enter":
            params["text"] = "\r"
        elif len(key) == 1:
            params["text"] = key
        self.call("Input.dispatchKeyEvent", type="keyDown", **params)
        self.call("Input.dispatchKeyEvent", type="keyUp", key=key)

    def mouse(self, kind, x, y, **more):
        self.call("Input.dispatchMouseEvent", type=kind, x=x, y=y, **more)

    def click(self, x, y):
        self.mouse("mousePressed", x, y, button="left", clickCount=1)
        self.mouse("mouseReleased", x, y, button="left", clickCount=1)

    def shot(self, name):
        data = self.call("Page.captureScreenshot", format="png")["data"]
        with open(os.path.join(SHOTS, name + ".png"), "wb") as file:
            file.write(base64.b64decode(data))

    def problems(self):
        """What the browser has logged, but for the icon that it asks for by itself."""
        found = []
        for event in self.events:
            if event.get("method") == "Runtime.exceptionThrown":
                found.append(event["params"]["exceptionDetails"]["text"])
            if event.get("method") == "Log.entryAdded":
                entry = event["params"]["entry"]
                if "favicon" not in entry.get("url", ""):
                    found.append(entry["text"])
        return found

    def close(self):
        with contextlib.suppress(Exception):
            self.session = None
            self.call("Browser.close")
        self.process.wait(timeout=WAIT)
        self.profile.cleanup()


@contextlib.contextmanager
def served(*words):
    process = subprocess.Popen([ROLLMAP, "serve", *words], stdout=subprocess.PIPE, text=True)
    try:
        yield re.search(r"http://127\.0\.0\.1:\d+/", process.stdout.readline()).group()
    finally:
        process.terminate()
        process.wait()


def table(path, marks):
    with open(path, "w", encoding="utf-8") as file:
        file.write("x,y,radius,priority,kind,tag\n")
        file.writelines(",".join(map(str, mark)) + "\n" for mark in marks)


def made_up(seed, n, x, y):
    draw = random.Random(seed)
    kinds = [(0, 9), (10, 49), (10, 49), (50, 99), (100, 149), (150, 199)]
    return [(draw.randint(*x), draw.randint(*y), draw.choice([0, 0, 0, draw.randint(5, 120)]), draw.randrange(100),
             draw.randint(*draw.choice(kinds)), tag + 1) for tag in range(n)]


def make(folder, name, marks, *options):
    table(f"{folder}/{name}.csv", marks)
    subprocess.run([ROLLMAP, "make", f"{folder}/{name}.csv", *options, "--output", f"{folder}/{name}.sheet"], check=True,
                   stdout=subprocess.DEVNULL)
    return f"{folder}/{name}.sheet"


DRAWN = ("document.querySelectorAll('#moved [data-mark]').length + "
         "[...document.querySelectorAll('#moved [data-marks]')].reduce((sum, path) => sum + Number(path.dataset.marks), 0)")
SHOWN = "scene.labels.length"
SAID = "document.getElementById('said').textContent"
TROUBLE = "document.getElementById('trouble').textContent"
WHY = "document.getElementById('why').textContent"
FOCUS_MAP = "document.getElementById('map').focus()"


def adds_up(browser):
    counts = browser.js("scene.counts")
    rows = all(row[1] + row[2] + row[3] == row[4] and row[0] <= row[1] for row in counts)
    return rows and all(sum(row[i] for row in counts[:5]) == counts[5][i] for i in range(5))


def try_small(browser, folder):
    marks = made_up(1, 50, (0, 12000), (0, 5000))
    sheet = make(folder, "fifty", marks)
    # The list lacks a mark, and has one moved.
    listed = [(x + (7 if tag == 20 else 0), y, r, p, k, tag) for x, y, r, p, k, tag in marks if tag != 10]
    table(f"{folder}/list.csv", listed)
    with served(sheet, "--list", f"{folder}/list.csv") as address:
        browser.open(address)
        browser.rest_of_view()
        check("50: labels are drawn, and the counts add up", browser.js(SHOWN) > 0 and adds_up(browser))
        browser.shot("50-opened")
        browser.js("document.getElementById('hidden').click()")
        browser.rest_of_view()
        check("50: hidden marks are drawn", browser.js("scene.dots.length") > 0 and browser.js(DRAWN) > browser.js(SHOWN))
        browser.js(FOCUS_MAP)
        before = browser.js("now.k")
        browser.key("-")
        browser.rest_of_view()
        check("50: minus goes to the next stop", browser.js("now.k") == 2 * before and f"zoom {2 * before / 64:g}" in browser.js(SAID))
        browser.key("+")
        browser.rest_of_view()
        browser.key("n")
        check("50: N chooses the first mark, and it is said", browser.js(SAID).startswith("Mark "))
        browser.key("Enter")
        check("50: Enter tells why", browser.until(f"{WHY}.includes('In this view mark')"))
        browser.rest_of_view()
        browser.shot("50-why")
        hidden = browser.js("(() => { const [, x, y] = scene.dots[0]; const box = map.getBoundingClientRect(); "
                            "const [a, b] = point(drawn, x, y); return [scene.dots[0][0], a + box.left + 1, b + box.top + 1]; })()")
        browser.click(hidden[1], hidden[2])
        check("50: a click on a hidden mark tells by whom", browser.until(f"{WHY}.includes('In this view mark {hidden[0]} is hidden since')"))
        browser.rest_of_view()
        browser.shot("50-why-hidden")
        unexplained = "document.getElementById('fate').value = 'unexplained'; document.getElementById('fate').dispatchEvent(new Event('change'))"
        browser.js(unexplained)
        check("50: the planted differences are the unexplained rows", browser.until("document.querySelectorAll('#rows tbody tr').length === 3"))
        browser.js("document.getElementById('hold').scrollIntoView()")
        browser.shot("50-unexplained")
        browser.js("scrollTo(0, 0)")
        x = browser.js("now.x")
        browser.js(FOCUS_MAP)
        browser.key("ArrowRight")
        browser.rest_of_view()
        check("50: the arrow key moves the view", browser.js("now.x") > x)
        try_mouse(browser)
        try_turn(browser)
        check("50: the browser logged no problem " + str(browser.problems()), browser.problems() == [])


def try_mouse(browser):
    x, k = browser.js("now.x"), browser.js("now.k")
    middle = browser.js("(() => { const box = map.getBoundingClientRect(); return [box.left + box.width / 2, box.top + box.height / 2]; })()")
    browser.mouse("mousePressed", *middle, button="left", clickCount=1)
    for step in range(1, 6):
        browser.mouse("mouseMoved", middle[0] + 20 * step, middle[1], button="left", buttons=1)
    browser.mouse("mouseReleased", middle[0] + 100, middle[1], button="left", clickCount=1)
    browser.rest_of_view()
    check("50: dragging moves the view by what is dragged", abs(x - browser.js("now.x") - 100 * browser.js("unit(now)")) < 1)
    browser.mouse("mouseWheel", *middle, deltaX=0, deltaY=120)
    browser.rest_of_view()
    check("50: the wheel changes the zoom by less than a stop", k < browser.js("now.k") < 2 * k)


def try_turn(browser):
    browser.js(FOCUS_MAP)
    browser.key("e")
    browser.key("t")
    browser.key("e")
    browser.rest_of_view()
    check("50: T turns, and it is said", browser.js("drawn.turn") == 1 and "one quarter turn" in browser.js(SAID))
    browser.shot("50-turned")


def try_large(browser, folder):
    sheet = make(folder, "large", made_up(2, 4096, (-32768, 32767), (-20000, 20000)))
    with served(sheet) as address:
        browser.open(address)
        browser.rest_of_view()
        browser.shot("4096-opened")
        browser.js("document.getElementById('density').value = '2048'; document.getElementById('density').dispatchEvent(new Event('change'))")
        browser.js("zoomTo(1)")
        browser.rest_of_view()
        browser.js("everything()")
        browser.rest_of_view()
        check("4096: nearly all are drawn at once", browser.js(DRAWN) > 4000 and adds_up(browser))
        browser.shot("4096-all")
        times = browser.js("(async () => { const times = []; for (let i = 0; i < 20; i += 1) { const t = performance.now(); "
                           "now.x += 10; await once({ ...now }); times.push(performance.now() - t); } return times.sort((a, b) => a - b); })()")
        print(f"        4096 marks asked for and drawn: median {times[10]:.0f} ms, longest {times[-1]:.0f} ms")
        check("4096: asked for and drawn in less than a quarter of a second", times[-1] < 250)
        rows = browser.js("(async () => { const t = performance.now(); await showRows(); return performance.now() - t; })()")
        print(f"        the table of 4096 held marks: {rows:.0f} ms")
        browser.js("document.getElementById('density').value = '4'; document.getElementById('density').dispatchEvent(new Event('change'))")
        browser.js("everything()")
        browser.js("document.getElementById('hidden').click()")
        browser.rest_of_view()
        browser.shot("4096-hidden")
        check("4096: the browser logged no problem " + str(browser.problems()), browser.problems() == [])


def try_squares(browser, folder):
    sheet = make(folder, "squares", made_up(3, 60, (-3000, 9000), (-2500, 3000)), "--shape", "square")
    with served(sheet) as address:
        browser.open(address)
        browser.rest_of_view()
        check("squares: they are drawn as squares", browser.js("document.querySelectorAll('#moved rect[data-mark]').length") > 0)
        browser.shot("squares-opened")
        browser.js(FOCUS_MAP)
        browser.key("t")
        check("squares: the turn is refused by 20, and that is said", browser.until(f"{TROUBLE}.includes('question 20')"))
        browser.rest_of_view()
        check("squares: the view stays as it was", browser.js("now.turn") == 0 and browser.js(DRAWN) > 0)
        browser.shot("squares-turn-refused")
        browser.key("ArrowLeft")
        browser.rest_of_view()
        check("squares: what was said goes with the next view", browser.js(TROUBLE) == "")


def try_narrow(browser, folder):
    with served(f"{folder}/fifty.sheet") as address:
        browser.open(address, 700, 1400)
        browser.rest_of_view()
        check("narrow: the page is no wider than the screen", browser.js("document.documentElement.scrollWidth") <= 700)
        browser.shot("narrow")
        try_keyboard(browser)
        try_names(browser)


def try_keyboard(browser):
    """Goes through the page by Tab, and looks what has the focus, and whether that is seen."""
    browser.js("document.activeElement.blur(); scrollTo(0, 0)")
    seen, unmarked = [], []
    for _ in range(40):
        browser.key("Tab")
        name, outline = browser.js("(() => { const it = document.activeElement; return [it.id || it.dataset.pan || it.textContent.trim(), "
                                   "getComputedStyle(it).outlineStyle]; })()")
        seen.append(name)
        if outline == "none":
            unmarked.append(name)
    wanted = {"nearer", "farther", "stop", "wheel", "-1 0", "1 0", "0 -1", "0 1", "everything", "turn", "density", "hidden", "picture", "map",
              "mark", "fate"}
    check(f"keyboard: Tab reaches every control {sorted(wanted - set(seen))}", wanted <= set(seen))
    check(f"keyboard: the focus is seen on each {unmarked}", unmarked == [])


def try_names(browser):
    """Looks whether what a screen reader is handed has names."""
    nodes = browser.call("Accessibility.getFullAXTree")["nodes"]
    value = lambda node, field: node.get(field, {}).get("value", "")
    roles = {"button", "textbox", "spinbutton", "combobox", "checkbox", "link", "table", "region", "application"}
    named = [node for node in nodes if not node["ignored"] and value(node, "role") in roles]
    nameless = [value(node, "role") for node in named if not value(node, "name")]
    found = {value(node, "role") for node in nodes if not node["ignored"]}
    check(f"names: each of {len(named)} controls, tables and regions has one {nameless}", nameless == [] and len(named) > 20)
    check("names: there are landmarks, headings, tables with heads, and a status",
          {"main", "banner", "heading", "table", "columnheader", "rowheader", "status", "application"} <= found)


def main():
    browser = Browser()
    try:
        with tempfile.TemporaryDirectory() as folder:
            for trial in (try_small, try_large, try_squares, try_narrow):
                trial(browser, folder)
    finally:
        browser.close()
    print(f"{len(failures)} failed")
    sys.exit(1 if failures else 0)


main()
