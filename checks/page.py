#!/usr/bin/env python3
"""Opens the page that tools/draw --html makes of each trace given in a browser without a screen (Debian's chromium), moves the
pointer through it, and compares what it shows with the trace: at each moment its lines; of each side the state, as the rules have
it, and the open socket and the number that was accepted last, as the lines have them; that each answer has a row; a search; and
that a click lights up the way of a post.

usage: checks/page.py TRACE..

The status is 0 where all is as in the traces."""
import json
import os
import pathlib
import re
import subprocess
import sys
import tempfile

sys.dont_write_bytecode = True
TOP = pathlib.Path(__file__).resolve().parent.parent
sys.path.insert(0, str(TOP / "tools"))
import page as pages
import run_trace

BROWSER = ["chromium", "--headless", "--no-sandbox", "--disable-gpu", "--window-size=1600,900", "--remote-debugging-pipe", "about:blank"]


class Browser:
    """A browser that is told what to do through a pipe, by the DevTools protocol."""

    def __init__(self, profile):
        here, there = os.pipe(), os.pipe()
        fds = (here[0], there[1])

        def hand_over():
            kept = [os.dup2(fd, 10 + place) for place, fd in enumerate(fds)]
            for place, fd in enumerate(kept):
                os.dup2(fd, 3 + place)

        self.ran = subprocess.Popen([*BROWSER[:-1], f"--user-data-dir={profile}", BROWSER[-1]], close_fds=False, preexec_fn=hand_over,
                                    stdout=subprocess.DEVNULL, stderr=subprocess.DEVNULL)
        os.close(fds[0])
        os.close(fds[1])
        self.out, self.into, self.count, self.session = os.fdopen(here[1], "wb", 0), os.fdopen(there[0], "rb"), 0, None
        target = next(it for it in self.ask("Target.getTargets")["targetInfos"] if it["type"] == "page")
        self.session = self.ask("Target.attachToTarget", targetId=target["targetId"], flatten=True)["sessionId"]
        self.ask("Page.enable")

    def ask(self, method, **words):
        self.count += 1
        said = {"id": self.count, "method": method, "params": words} | ({"sessionId": self.session} if self.session else {})
        self.out.write(json.dumps(said).encode() + b"\0")
        while True:
            answer = self.next()
            if answer.get("id") == self.count:
                if "error" in answer:
                    sys.exit(f"page: {method}: {answer['error']}")
                return answer["result"]

    def next(self):
        text = b""
        while not text.endswith(b"\0"):
            byte = self.into.read(1)
            if not byte:
                sys.exit("page: the browser has ended")
            text += byte
        return json.loads(text[:-1])

    def open(self, file):
        self.ask("Page.navigate", url=f"file://{file}")
        while self.value("document.readyState + location.href") != f"completefile://{file}":
            pass

    def value(self, text):
        got = self.ask("Runtime.evaluate", expression=text, returnByValue=True)
        if "exceptionDetails" in got:
            sys.exit(f"page: {text}: {got['exceptionDetails']}")
        return got["result"].get("value")

    def pointer(self, kind, x, y, **words):
        self.ask("Input.dispatchMouseEvent", type=kind, x=x, y=y, **words)

    def close(self):
        self.ask("Browser.close")
        self.ran.wait(20)


SHOWN = """(() => {
  const texts = (from) => [...document.querySelectorAll(from)].map((it) => it.textContent);
  const states = [...document.querySelectorAll("#states table")].map((table) => [...table.rows].map((row) => [...row.cells].map((it) => it.textContent)));
  return { moment: texts("#moment")[0], lines: texts("#lines li"), answers: texts("#answers li"), states };
})()"""


class Sides:
    """What a trace's own entries say of each side, row by row."""

    def __init__(self, run):
        self.run, self.has, self.states = run, {}, {}
        self.changes = dict(zip(run.rows, pages.states(run)))
        for a, b in run.links:
            for side in ((a, b), (b, a)):
                self.has[side] = {"socket": "none", "accepted": 0}

    def pass_row(self, row):
        self.states |= {(link, side): state for link, side, state in self.changes[row]}
        for event in row.events:
            side = self.has.get((event.node, event.peer))
            if event.what in ("opened", "judged") and (event.what == "opened" or event.words[8] in run_trace.TAKES):
                side["socket"] = event.socket.name
            elif event.what == "closed" and side["socket"] == event.socket.name:
                side["socket"] = "none"
            elif event.what == "accepted":
                side["accepted"] = int(event.words[0])


def objections(browser, file):
    """What of the page of this trace isn't as the trace has it."""
    text = pathlib.Path(file).read_text()
    run = run_trace.read_run(text)
    with tempfile.NamedTemporaryFile("w", suffix=".html") as page:
        made = subprocess.run([TOP / "tools" / "draw", "--html", file], capture_output=True, text=True)
        if made.returncode:
            yield f"tools/draw: {made.stderr}"
            return
        page.write(made.stdout)
        page.flush()
        if re.search(r"""(src|href)=|url\(|https?://(?!www\.w3\.org/2000/svg")""", made.stdout):
            yield "the page names something outside of it"
        browser.open(page.name)
        yield from shown_otherwise(browser, run, text.splitlines())


def shown_otherwise(browser, run, lines):
    sides, drawn = Sides(run), browser.value("data.rows.map((row) => [row.line, (row.from + row.to) / 2])")
    heights = dict(drawn)
    if not drawn:
        yield "no row is drawn"
    for row in run.rows:
        sides.pass_row(row)
        if row.line not in heights:
            continue
        browser.value(f"window.scrollTo(0, {heights[row.line]} - 300)")
        top = browser.value("svg.getBoundingClientRect().top")
        browser.pointer("mouseMoved", 300, top + heights[row.line])
        shown = browser.value(SHOWN)
        if shown["moment"] != f"{' '.join(row.words)} (line {row.line})":
            yield f"line {row.line}: the pointer is at it, and the page shows {shown['moment']}"
            continue
        own = []
        for line in lines[row.line:]:
            if not line.startswith("  "):
                break
            own.append(line[2:])
        if shown["lines"] != own:
            yield f"line {row.line}: the page shows other lines than the trace has below it"
        why = [event for event in row.events if event.what in ("opened", "judged")]
        if len(shown["answers"]) != len(why):
            yield f"line {row.line}: {len(why)} sockets opened and asks answered, and {len(shown['answers'])} are shown"
        yield from wrong_states(row, run, sides, shown["states"])
    yield from wrong_ways(browser, run)
    yield from wrong_search(browser, lines)


def wrong_states(row, run, sides, states):
    if len(states) != len(run.links):
        yield f"line {row.line}: the states of {len(states)} links of {len(run.links)}"
    for link, ((a, b), table) in enumerate(zip(run.links, states)):
        if table[0] != ["", a, b]:
            yield f"line {row.line}: the table of {a} and {b} has the head {table[0]}"
        shown = {key: values for key, *values in table[1:]}
        for place, side in enumerate(((a, b), (b, a))):
            if {key: values[place] for key, values in shown.items()} != sides.states[link, place]:
                yield f"line {row.line}: of {side[0]} is shown {shown}, and by the rules it is {sides.states[link, place]}"
            for key in ("socket", "accepted"):
                if shown[key][place] != str(sides.has[side][key]) and not (key == "accepted" and is_set_back(run, side)):
                    yield f"line {row.line}: {key} of {side[0]} is {sides.has[side][key]}, and {shown[key][place]} is shown"


def is_set_back(run, side):
    """Whether some entry of this side sets the accepted number back, which an answer alone may do."""
    whats = {event.what for row in run.rows for event in row.events if (event.node, event.peer) == side}
    return bool(whats & {"obeyed", "down"}) or sum(len(it.judged) for it in run.between(*side)) > 1


def wrong_ways(browser, run):
    """A click on each post lights up what is of it, and nothing else; a click beside it ends that."""
    posts = [row for row in run.rows if row.what == "post"]
    for place, row in enumerate(posts):
        spot = browser.value(f"""(() => {{
          const it = document.querySelector('text[data-post="{place}"]');
          if (!it) return null;
          it.scrollIntoView({{ block: "center" }});
          const box = it.getBoundingClientRect();
          return [box.x + box.width / 2, box.y + box.height / 2];
        }})()""")
        if not spot:
            continue
        for kind in ("mousePressed", "mouseReleased"):
            browser.pointer(kind, *spot, button="left", clickCount=1)
        lit, told = browser.value('[[...new Set([...document.querySelectorAll(".way")].map((it) => it.dataset.post))], document.getElementById("way").textContent]')
        if lit != [str(place)]:
            yield f"line {row.line}: a click on the post lights up {lit}"
        if not told.startswith(f"line {row.line}: {' '.join(row.words)}: "):
            yield f"line {row.line}: a click on the post tells {told}"


def wrong_search(browser, lines):
    word = "journal"
    found = browser.value(f"""(() => {{
      const box = document.getElementById("search");
      box.value = {json.dumps(word)};
      box.dispatchEvent(new Event("input"));
      return document.getElementById("hits").textContent;
    }})()""")
    rows = browser.value(f"data.rows.filter((row) => row.lines.some((line) => line.includes({json.dumps(word)}))).length")
    if found != f"{rows} found" or rows == 0:
        yield f"a search for {word}: {found}, and {rows} moments have it"


def main(files):
    wrong = 0
    with tempfile.TemporaryDirectory() as profile:
        browser = Browser(profile)
        for file in files:
            said = list(objections(browser, file))
            wrong += len(said)
            for it in said[:10]:
                print(f"{file}: {it}")
            if not said:
                print(f"{file}: the page shows what the trace says")
        browser.close()
    return 1 if wrong or not files else 0


sys.exit(main(sys.argv[1:]))
