#!/usr/bin/env python3
"""check_view.py KMDFSIM [KMDFVIEW] [--pictures FOLDER]: looks at the pages of all examples in a browser.

It needs Debian's `chromium` and `python3-websocket`, and fails where one isn't there. For each
example: the page has as many boxes as the trace has starts, and as many first pieces of spans as requests come to be;
pointing at a box shows its trace line; a click dims what isn't about that object, and a second one nothing; the arrow keys
go from event to event, a drag moves the picture and leaves the labels in view, a search finds the last event, a zoom makes it
wider; without the script there are as many shapes; the page has no address; the console has no message. A trace with a line
taken out gets the line and the status of `replay`. The JSON of `perfetto`, where the program has that word, has a slice for each
start, its slices nest, and each span ends. The pages of a run of 20,000 events and of one of 200,000 open with blocks, and a zoom
draws what is in them. Pages that `./kmdfview html WAY FILE` makes open at the fault, or at the wait list, or with the whole run in
the window; the script beside the run shows the line of the event that is chosen, and the story its events. The pictures of the
documents are those that the programs make. With --pictures it takes screenshots in light, in dark and at 400 pixels' width."""
import base64
import glob
import importlib.util
import json
import os
import re
import shutil
import subprocess
import sys
import tempfile
import time
import urllib.request

here = os.path.dirname(os.path.abspath(__file__))


def lacking():
    """The package of Debian that looking at pages needs and that isn't there, if there is one."""
    if not shutil.which("chromium"):
        return "chromium"
    return None if importlib.util.find_spec("websocket") else "python3-websocket"


class Tab:
    def __init__(self, address):
        import websocket  # (who reads the JSON alone needs no browser, and not this)

        # (To a page's Origin the browser would say no.)
        self.socket = websocket.create_connection(address, timeout=120, suppress_origin=True)
        self.count = 0
        self.messages = []

    def ask(self, method, **what):
        self.count += 1
        self.socket.send(json.dumps({"id": self.count, "method": method, "params": what}))
        while True:
            got = json.loads(self.socket.recv())
            if got.get("id") == self.count:
                if "error" in got:
                    sys.exit(f"{method}: {got['error']}")
                return got["result"]
            if got.get("method") in ("Runtime.consoleAPICalled", "Runtime.exceptionThrown", "Log.entryAdded"):
                self.messages.append(json.dumps(got["params"])[:400])

    def value(self, expression):
        got = self.ask("Runtime.evaluate", expression=expression, returnByValue=True)
        if "exceptionDetails" in got:
            sys.exit(f"{expression}: {json.dumps(got['exceptionDetails'])[:400]}")
        return got["result"].get("value")

    def mouse(self, kind, x, y, **more):
        self.ask("Input.dispatchMouseEvent", type=kind, x=x, y=y, **more)

    def picture(self, path, width, height, dark):
        self.ask("Emulation.setEmulatedMedia", features=[{"name": "prefers-color-scheme", "value": "dark" if dark else "light"}])
        self.ask("Emulation.setDeviceMetricsOverride", width=width, height=height, deviceScaleFactor=1, mobile=False)
        time.sleep(0.2)
        data = self.ask("Page.captureScreenshot", format="png")["data"]
        with open(path, "wb") as it:
            it.write(base64.b64decode(data))


def browser(folder):
    if lacking():
        sys.exit(f"there is no {lacking()} here: apt-get install {lacking()}")
    started = subprocess.Popen(
        ["chromium", "--headless", "--no-sandbox", "--disable-gpu", "--remote-debugging-port=0", f"--user-data-dir={folder}", "about:blank"],
        stdout=subprocess.DEVNULL,
        stderr=subprocess.DEVNULL,
    )
    port_file = os.path.join(folder, "DevToolsActivePort")
    for _ in range(600):
        if os.path.exists(port_file) and os.path.getsize(port_file):
            break
        time.sleep(0.1)
    with open(port_file, encoding="ascii") as it:
        port = it.readline().strip()
    request = urllib.request.Request(f"http://127.0.0.1:{port}/json/new?about:blank", method="PUT")
    with urllib.request.urlopen(request, timeout=60) as it:
        return started, Tab(json.load(it)["webSocketDebuggerUrl"])


def words_of(viewer):
    """The words that a viewer knows, by its line of usage."""
    usage = subprocess.run([viewer], input="", capture_output=True, text=True, check=False).stdout
    return usage.split()[2::2]


def slices_nest(items):
    """Whether the slices of each track lie apart or in one another, in the order in which a viewer takes them."""
    tracks = {}
    for item in items:
        if item["ph"] == "X":
            tracks.setdefault((item["pid"], item["tid"]), []).append((item["ts"], -item["dur"]))
    for slices in tracks.values():
        ends = []
        for begin, length in sorted(slices):
            while ends and ends[-1] <= begin:
                ends.pop()
            if ends and begin - length > ends[-1]:
                return False
            ends.append(begin - length)
    return True


def spans_end(items):
    """Whether each span that begins ends, in the order of a stack for each sort and id."""
    order, stacks = {"e": 0, "n": 1, "b": 2}, {}
    told = [(item["ts"], k, item) for k, item in enumerate(items) if item["ph"] in order]
    for _, _, item in sorted(told, key=lambda one: one[:2]):
        stack = stacks.setdefault((item["cat"], item["id"]), [])
        if item["ph"] == "b":
            stack.append(item["name"])
        elif item["ph"] == "e" and (not stack or stack.pop() != item["name"]):
            return False
    return not any(stacks.values())


def look_at_json(name, trace, text):
    """What is wrong with the JSON of a run."""
    items = json.loads(text)["traceEvents"]
    starts = re.findall(r"^(\d+) cpu\d+ start ", trace, re.M)
    begun = {item["args"]["line"].split()[0] for item in items if item["ph"] == "X" and " start " in item["args"]["line"]}
    spans = [item for item in items if item["ph"] == "b" and item["cat"] == "request" and "." in item["name"]]
    bad = []
    if begun != set(starts):
        bad.append(f"{name}: the JSON has slices for other starts than the trace")
    if len(spans) != births(trace):
        bad.append(f"{name}: the JSON has {len(spans)} requests")
    if not slices_nest(items):
        bad.append(f"{name}: slices of the JSON don't nest")
    if not spans_end(items):
        bad.append(f"{name}: spans of the JSON don't end")
    return bad


def look_at_refusal(simulator, viewer, name, text, trace):
    """What is wrong with the answer to a trace without its second line."""
    lines = trace.splitlines(keepends=True)
    given = text + "trace\n" + "".join(lines[:1] + lines[2:])
    wanted = subprocess.run([simulator, "replay"], input=given, capture_output=True, text=True, check=False)
    bad = []
    for word in words_of(viewer):
        got = subprocess.run([viewer, word], input=given, capture_output=True, text=True, check=False)
        if (got.stdout, got.returncode) != (wanted.stdout, wanted.returncode):
            bad.append(f"{name}: {word} answers {got.stdout[:80]!r} where replay answers {wanted.stdout!r}")
    return bad


def births(trace):
    """How many requests come to be in a trace."""
    arrived = re.findall(r"^\d+ \S+ (?:read|write|control) .* -> (?!none)\S+$", trace, re.M)
    made = re.findall(r"^\d+ cpu\d+ call WdfRequestCreate .* -> (?!INSUFF)\S+\.\d+$", trace, re.M)
    return len(arrived) + len(made)


# Whether each label of a shape that is in view is in view too.
LABELS = """(() => { const left = document.getElementById('names').getBoundingClientRect().right;
  return [...document.querySelectorAll('#shapes svg.s:not(.fault)')].filter(s => s.querySelector('text')).every(s =>
    s.querySelector('rect').getBoundingClientRect().right <= left || s.querySelector('text').getBoundingClientRect().left >= left); })()"""

# A point in the first box that is in view, beside the names of the lanes.
BOX_IN_VIEW = """(() => { const left = document.getElementById('names').getBoundingClientRect().right;
  const box = [...document.querySelectorAll('#shapes svg.b > rect')].map(b => b.getBoundingClientRect()).find(b => b.x >= left);
  return box && [box.x + 4, box.y + 5]; })()"""

# What counts the shapes of a page.
SHAPES = "document.querySelectorAll('#shapes svg.s').length"


def opened(tab, page):
    """Opens a page in a wide window, and waits until its script has run."""
    tab.ask("Emulation.setDeviceMetricsOverride", width=1200, height=800, deviceScaleFactor=1, mobile=False)
    tab.ask("Page.navigate", url="file://" + page)
    for _ in range(600):
        if tab.value("document.readyState") == "complete" and tab.value("location.href").endswith(page) and tab.value("!document.getElementById('tools').hidden"):
            return
        time.sleep(0.1)
    sys.exit(f"{page} doesn't open")


def without_script(tab, page):
    """How many shapes a page has where no script runs."""
    tab.ask("Emulation.setScriptExecutionDisabled", value=True)
    tab.ask("Page.navigate", url="file://" + page)
    for _ in range(600):
        if tab.value("document.readyState") == "complete" and tab.value("location.href").endswith(page):
            break
        time.sleep(0.1)
    count = tab.value(SHAPES)
    tab.ask("Emulation.setScriptExecutionDisabled", value=False)
    return count


def move(tab, want, trace):
    """Drags, zooms and searches."""
    width = tab.value("Number(document.getElementById('plot').getAttribute('width'))")
    tab.ask("Input.dispatchKeyEvent", type="keyDown", key="+", text="+")
    tab.ask("Input.dispatchKeyEvent", type="keyDown", key="+", text="+")
    want("a zoom makes it wider", tab.value("Number(document.getElementById('plot').getAttribute('width'))") > width, True)
    tab.value("document.getElementById('run').scrollLeft = 0")
    y = tab.value("document.getElementById('run').getBoundingClientRect().top") + 30
    tab.mouse("mousePressed", 800, y, button="left", clickCount=1)
    tab.mouse("mouseMoved", 600, y, button="left")
    tab.mouse("mouseMoved", 500, y, button="left")
    tab.mouse("mouseReleased", 500, y, button="left", clickCount=1)
    room = tab.value("(r => r.scrollWidth - r.clientWidth)(document.getElementById('run'))")
    want("a drag moves it", tab.value("document.getElementById('run').scrollLeft") > 0, room > 0)
    time.sleep(0.1)
    want("labels stay in view", tab.value(LABELS), True)
    last = [line for line in trace.splitlines() if re.match(r"\d+ ", line)][-1]
    tab.value(f"(s => {{ s.value = {json.dumps(last)}; s.dispatchEvent(new KeyboardEvent('keydown', {{ key: 'Enter' }})); }})(document.querySelector('#tools input'))")
    want("a search finds the last event", tab.value("document.getElementById('line').textContent"), last)


def look_at_large(tab, name, trace, page):
    """What is wrong with the page of a large run."""
    began = time.monotonic()
    opened(tab, page)
    print(f"the browser opens it in {time.monotonic() - began:.1f} s", flush=True)
    bad = []
    starts = len(re.findall(r"^\d+ cpu\d+ start ", trace, re.M))
    drawn, blocks = tab.value(SHAPES), tab.value("document.querySelectorAll('#shapes rect.m').length")
    kept = tab.value("document.getElementById('all').textContent.split('\\n').filter(row => row.split('|')[0].split(' ').includes('b')).length")
    if kept != starts:
        bad.append(f"{name} has {kept} boxes in its page, and {starts} starts")
    if not 0 < drawn + blocks < 20_000:
        bad.append(f"{name} draws {drawn} shapes and {blocks} blocks at first")
    for _ in range(18):
        tab.ask("Input.dispatchKeyEvent", type="keyDown", key="+", text="+")
    time.sleep(0.5)
    place = tab.value(BOX_IN_VIEW)
    if place is None:
        return bad + [f"a zoom into {name} draws no box"]
    tab.mouse("mouseMoved", *place)
    if tab.value("document.getElementById('line').textContent") not in trace.splitlines():
        bad.append(f"a box of {name} has no trace line")
    return bad + [f"{name}: {message}" for message in tab.messages]


def look(tab, name, trace, page, pictures):
    bad = []

    def want(what, got, wanted):
        if got != wanted:
            bad.append(f"{name}: {what}: {got!r}, and not {wanted!r}")

    shapes = without_script(tab, page)
    tab.messages.clear()
    opened(tab, page)
    want("shapes without the script", shapes, tab.value(SHAPES))
    starts = re.findall(r"^\d+ cpu\d+ start .*$", trace, re.M)
    want("boxes", tab.value("document.querySelectorAll('#shapes svg.b').length"), len(starts))
    want("requests", tab.value("document.querySelectorAll('#shapes svg.q').length"), births(trace))
    want("arrows", tab.value("document.querySelectorAll('#stuck .w').length"), len(trace.split("stuck ", 1)[1].splitlines()) - 1 if "\nstuck " in trace else 0)
    if starts:
        place = tab.value("(() => { const r = document.querySelector('#shapes svg.b > rect').getBoundingClientRect(); return [r.x + 4, r.y + 5]; })()")
        tab.mouse("mouseMoved", *place)
        want("the line of the first box", tab.value("document.getElementById('line').textContent"), starts[0])
        for kind in ("mousePressed", "mouseReleased"):
            tab.mouse(kind, *place, button="left", clickCount=1)
        time.sleep(0.1)
        want("a click dims", tab.value("document.querySelectorAll('#shapes svg.s:not(.dim)').length < document.querySelectorAll('#shapes svg.s').length || document.querySelectorAll('#shapes .s').length < 4"), True)
        number = int(starts[0].split()[0])
        for key, step in (("ArrowRight", 1), ("ArrowLeft", -1)):
            tab.ask("Input.dispatchKeyEvent", type="keyDown", key=key)
            number += step
            want(key, tab.value("document.getElementById('line').textContent"), trace.splitlines()[number - 1])
        for kind in ("mousePressed", "mouseReleased"):
            tab.mouse(kind, *place, button="left", clickCount=1)
        time.sleep(0.1)
        want("a second click dims nothing", tab.value("document.querySelectorAll('#shapes .dim').length"), 0)
        move(tab, want, trace)
    if pictures:
        base = os.path.join(pictures, name)
        tab.picture(base + "-light.png", 1200, 800, False)
        tab.picture(base + "-dark.png", 1200, 800, True)
        tab.picture(base + "-narrow.png", 400, 800, False)
        want("the page is no wider than a narrow window", tab.value("document.documentElement.scrollWidth <= 400"), True)
    want("messages", tab.messages, [])
    return bad


def look_at_example(tab, simulator, viewer, path, folder, pictures):
    """What is wrong with the picture of an example."""
    name = os.path.basename(path)[: -len(".kmdf")]
    with open(path, encoding="ascii") as it:
        text = it.read()
    trace = subprocess.run([simulator, "order"], input=text, capture_output=True, text=True, check=False).stdout
    given = text + "trace\n" + trace
    shown = subprocess.run([viewer, "html"], input=given, capture_output=True, text=True, check=False)
    if shown.returncode != 0:
        return [f"{name}: status {shown.returncode}: {shown.stdout[:200]}"]
    page = os.path.join(folder, name + ".html")
    with open(page, "w", encoding="ascii") as it:
        it.write(shown.stdout)
    bad = look(tab, name, trace, page, pictures) + look_at_refusal(simulator, viewer, name, text, trace)
    if "://" in shown.stdout:
        bad.append(f"{name}: the page has an address of something outside")
    if "perfetto" in words_of(viewer):
        told = subprocess.run([viewer, "perfetto"], input=given, capture_output=True, text=True, check=True)
        bad += look_at_json(name, trace, told.stdout)
    return bad


# What the launcher is asked for, and what the page has to open at: the line of the event that is chosen, the line of the script,
# whether it is stuck, and a line of the story, if it has one.
WITH_SCRIPT = (
    ("seed 10 examples/echo-bug.kmdf", "44 cpu0 fault CompleteBeforeCancelCallback 17", 17, False, "The run of 44 events ended in the fault CompleteBeforeCancelCallback at line 17."),
    ("order examples/deadlock.kmdf", "", None, True, "These lines wait in a circle: 1, 2, 1."),
    ("order examples/first-read.kmdf", "", None, False, None),
)
CHOSEN = "(row => row && Number(row.dataset.n))(document.querySelector('#script .chosen'))"
# Whether an element is in view, wholly, in its part of the page and in the window.
IN_VIEW = """((e, box) => { if (!e) return false; const a = e.getBoundingClientRect(), b = box.getBoundingClientRect();
  return a.left >= b.left - 1 && a.right <= b.right + 1 && a.top >= b.top - 1 && a.bottom <= b.bottom + 1 && a.bottom <= innerHeight; })"""


def page_with_script(words, folder):
    """The page that the launcher makes of a file, with its script."""
    page = os.path.join(folder, "script.html")
    with open(page, "wb") as it:
        subprocess.run(["./kmdfview", "html", *words.split()], cwd=os.path.join(here, ".."), stdout=it, check=True)
    return page


def clicked(tab, element):
    """Clicks an element, and answers the line of the event that is chosen then, and the line of the script."""
    tab.value(f"{element}.click()")
    return tab.value("document.getElementById('line').textContent"), tab.value(CHOSEN)


def look_at_scripts(tab, folder):
    """What is wrong with the pages that have the script and the story beside the run."""
    bad = []
    for words, line, chosen, is_stuck, told in WITH_SCRIPT:

        def want(what, got, wanted, words=words):
            if got != wanted:
                bad.append(f"html {words}: {what}: {got!r}, and not {wanted!r}")

        tab.messages.clear()
        opened(tab, page_with_script(words, folder))
        want("the event that it opens at", tab.value("document.getElementById('line').textContent"), line)
        want("the line that it opens at", tab.value(CHOSEN), chosen)
        want("a story", tab.value("[...document.querySelectorAll('#story div')].map(row => row.textContent)") if told is None else told in tab.value("document.getElementById('story').innerText"), [] if told is None else True)
        if chosen:
            want("the fault is in view", tab.value(IN_VIEW + "(document.querySelector('#shapes .fault > rect'), document.getElementById('run'))"), True)
            want("its line is in view", tab.value(IN_VIEW + "(document.querySelector('#script .chosen'), document.getElementById('script'))"), True)
        else:
            want("the whole run is in the window", tab.value("(r => r.scrollWidth <= r.clientWidth)(document.getElementById('run'))"), True)
        want("a wait list that is in view", tab.value(IN_VIEW + "(document.querySelector('#stuck'), document.body)"), is_stuck)
        with open(os.path.join(here, "..", words.split()[-1]), encoding="ascii") as it:
            want("the script", tab.value("[...document.querySelectorAll('#script div')].map(row => row.textContent).join('\\n')"), it.read().rstrip())
        if words.startswith("seed"):
            cancel = "[...document.querySelectorAll('#story .event')].find(row => row.textContent.includes('Typist cancel'))"
            want("a click on an event of the story", clicked(tab, cancel), ("41 Typist cancel 2 -> req.8", 78))
        elif not is_stuck:
            want("a click on a line", clicked(tab, "document.querySelectorAll('#script div')[11]"), ("3 cpu0 call WdfRequestComplete req.4 SUCCESS -> SUCCESS", 12))
            tab.ask("Input.dispatchKeyEvent", type="keyDown", key="ArrowRight")
            want("the line of the next event", tab.value(CHOSEN), 13)
        tab.ask("Emulation.setDeviceMetricsOverride", width=400, height=800, deviceScaleFactor=1, mobile=False)
        want("the page is no wider than a narrow window", tab.value("document.documentElement.scrollWidth <= 400"), True)
        want("messages", tab.messages, [])
    return bad


def large_runs():
    """A run of 20,000 events, and one of 200,000, more than which no run has."""
    sys.path.insert(0, os.path.join(here, "..", "bench"))
    from machine import interrupts, reads

    yield "the large run", reads(2850).replace("on EvtIoDefault\n", "on EvtIoDefault\nlet x = ( length + 1 )\n")
    yield "the longest run", interrupts(200_000)


def look_at_large_runs(tab, simulator, viewer, folder):
    """What is wrong with the pages of large runs."""
    bad = []
    for name, text in large_runs():
        trace = subprocess.run([simulator, "order"], input=text, capture_output=True, text=True, check=False).stdout
        given = text + "trace\n" + trace
        began = time.monotonic()
        shown = subprocess.run([viewer, "html"], input=given, capture_output=True, text=True, check=True).stdout
        print(f"{name}: {trace.split()[-1]} events, a page of {len(shown) / 1e6:.1f} MB in {time.monotonic() - began:.2f} s", flush=True)
        page = os.path.join(folder, "large.html")
        with open(page, "w", encoding="ascii") as it:
            it.write(shown)
        bad += look_at_large(tab, name, trace, page)
        if "perfetto" in words_of(viewer):
            told = subprocess.run([viewer, "perfetto"], input=given, capture_output=True, text=True, check=True)
            bad += look_at_json(name, trace, told.stdout)
    return bad


def main():
    words = sys.argv[1:]
    pictures = None
    if "--pictures" in words:
        k = words.index("--pictures")
        pictures = os.path.abspath(words[k + 1])
        os.makedirs(pictures, exist_ok=True)
        del words[k : k + 2]
    if len(words) not in (1, 2):
        sys.exit(__doc__)
    simulator = words[0]
    viewer = words[1] if len(words) == 2 else os.path.join(here, "..", "crates", "kmdfview", "out", "kmdfview")
    if not os.access(viewer, os.X_OK):
        sys.exit(f"no program at {viewer}: build it first, by `rt run` in crates/kmdfview")
    bad = []
    with tempfile.TemporaryDirectory(ignore_cleanup_errors=True) as folder:
        started, tab = browser(os.path.join(folder, "profile"))
        try:
            for domain in ("Page", "Runtime", "Log"):
                tab.ask(domain + ".enable")
            examples = sorted(glob.glob(os.path.join(here, "..", "examples", "*.kmdf")))
            for path in examples:
                bad += look_at_example(tab, simulator, viewer, path, folder, pictures)
            bad += look_at_scripts(tab, folder)
            bad += look_at_large_runs(tab, simulator, viewer, folder)
            checked = subprocess.run([sys.executable, os.path.join(here, "view", "pictures.py"), viewer, "--check"], capture_output=True, text=True, check=False)
            bad += checked.stdout.splitlines() + checked.stderr.splitlines()[-1:]
        finally:
            started.terminate()
            started.wait()
    for line in bad:
        print(line)
    print(f"{len(examples)} examples and two large runs, {len(bad)} things wrong")
    sys.exit(1 if bad else 0)


if __name__ == "__main__":
    main()
