"""A picture of a run as one page, which needs no network: the same picture, and beside it both sides' state at the moment under
the pointer, what the nodes did then, with what made a connect due and the row that answered an ask, a search, and the way of one
message lit up.

`page_of(run, fates, drawing, svg)` gives the text of the page, for tools/draw. The states are those of tools/model.py, which
plays the script of the trace; where that does otherwise than the trace, the page says so in their place. Of a run on threads, which
no script decides, they are those that the trace tells.
"""
import json

import model
import run_trace
from replay_trace import Wrong

NOTHING = ["absent", "0", "0", "0", "0", "no", "-", "0", "-", "0", "0", "0"]  # where a record stands that has done nothing
SIDE = ("phase", "socket", "client cookie", "server cookie", "peer's global", "connect", "numbered", "written", "waiting", "accepted")


def state_of(record):
    """What a side of a link has, in the words of docs/PROTOCOL.md."""
    queue = record.queue
    waiting = sum(sum(len(part) for part in message.parts) for message in queue.waiting)
    first = queue.acknowledged + 1
    last = queue.acknowledged + len(queue.numbered)
    numbered = f"{first} to {last}, not acknowledged" if queue.numbered else "none"
    values = (record.phase, record.feed.name if record.feed else "none", record.client_cookie, record.server_cookie, record.peer_global,
              record.connect, numbered, f"{queue.next} of these", f"{len(queue.waiting)} of {waiting} bytes" if queue.waiting else "none",
              record.accepted)
    return dict(zip(SIDE, map(str, values)))  # a number of JavaScript has 53 bits


def states(run):
    """Of each row, how each side that it changed is behind it: the link, the side, and the state, with what is out of the throttle."""
    played, before = model.Run(), {}
    played.declare([row.words for row in run.rows])
    for row in run.rows:
        played.play_step(row.words)
        now = {}
        for link, (a, b) in enumerate(played.links):
            now[link, 0], now[link, 1] = (state_of(one.towards(other)) | {"throttle": throttle(one)} for one, other in ((a, b), (b, a)))
        yield [[*key, state] for key, state in now.items() if before.get(key) != state]
        before = now


def told_states(run):
    """The same of a run on threads, as the lines of the trace have it."""
    stands, feeds, before = {}, {}, {}
    for row in run.rows:
        for event in row.events:
            pair = event.node, event.peer
            if event.what == "opened" or event.what == "judged" and event.words[8] in run_trace.TAKES:
                feeds[pair] = event.socket.name
            elif event.what == "closed" and feeds.get(pair) == event.socket.name:
                del feeds[pair]
        stands.update(row.sessions)
        now = {(link, side): told_state(stands.get(pair, NOTHING), feeds.get(pair, "none"))
               for link, (a, b) in enumerate(run.links) for side, pair in enumerate(((a, b), (b, a)))}
        yield [[*key, state] for key, state in now.items() if before.get(key) != state]
        before = now


def told_state(words, feed):
    phase, client, server, other, connect, _, _, accepted, _, acked, last, waiting = words
    numbered = f"{int(acked) + 1} to {last}, not acknowledged" if acked != last else "none"
    values = (phase, feed, client, server, other, connect, numbered, waiting if waiting != "0" else "none", accepted)
    return dict(zip((name for name in SIDE if name != "written"), values))


def throttle(node):
    return f"{node.out} of {node.bound} bytes" if node.bound else "none"


def rows_of(run, fates, times):
    """Each row that is drawn: from which height to which, its words, its lines, and the states that changed before it was over."""
    try:
        if not run.on_threads:
            run_trace.check(run)
        changes = list(told_states(run) if run.on_threads else states(run))
    except Wrong:
        changes = None
    drawn = {row: (start, end) for row, start, end in times.rows}
    lines, text = {}, dict(run.lines)
    numbers = sorted(text)
    starts = [row.line for row in run.rows] + [numbers[-1] + 1 if numbers else 1]
    for row, start, end in zip(run.rows, starts, starts[1:]):
        lines[row] = [text[number][2:] for number in numbers if start < number < end and text[number].startswith("  ")]
    rows, waiting = [], []
    for place, row in enumerate(run.rows):
        waiting += changes[place] if changes else []
        if row in drawn:
            start, end = drawn[row]
            answers = [why(event, fates) for event in row.events if event.what in ("opened", "judged")]
            rows.append({"from": start, "to": end, "words": " ".join(row.words), "line": row.line, "lines": lines[row], "answers": answers,
                         "states": waiting})
            waiting = []
    return rows, changes is not None


def why(event, fates):
    """What made a connect due, or the row that answered an ask."""
    if event.what == "opened":
        return f"{event.node} opens {event.socket.name}, {fates.due[event]}"
    return f"{event.node} answers {event.words[2]} by {' '.join(event.words[8:])}: row {event.named}"


def page_of(run, fates, drawing, svg):
    rows, is_played = rows_of(run, fates, drawing.times)
    links = [list(link) for link in run.links]
    shown = [place for place, link in enumerate(run.links) if link in drawing.part.links]
    posts = [f"line {post.row.line}: {' '.join(post.row.words)}: {' '.join(fates.fate(post))}" for post in fates.posts]
    data = {"rows": rows, "links": links, "shown": shown, "posts": posts, "played": is_played}
    text = json.dumps(data, separators=(",", ":")).replace("<", "\\u003c")
    return PAGE.replace("@SVG@", svg).replace("@DATA@", text)


PAGE = """<!doctype html>
<html lang="en">
<meta charset="utf-8">
<title>A run of msgr2</title>
<style>
body { margin: 0; font-family: 'DejaVu Sans', Verdana, Arial, sans-serif; font-size: 12px; color: #1f2937; }
#picture { margin-right: 430px; overflow-x: auto; }
#panel { position: fixed; top: 0; right: 0; bottom: 0; width: 410px; overflow: auto; padding: 8px 10px; box-sizing: border-box;
  background: #f8fafc; border-left: 1px solid #cbd5e1; }
#panel input { width: 240px; } #panel h2 { font-size: 13px; margin: 12px 0 4px; } #panel p { margin: 4px 0; color: #6b7280; }
table { border-collapse: collapse; width: 100%; } td, th { padding: 1px 4px; text-align: left; vertical-align: top; }
th { font-weight: normal; color: #6b7280; } tr.head th { font-weight: bold; color: #1f2937; }
td.new { background: #fef3c7; } ul { margin: 0; padding-left: 14px; overflow-wrap: anywhere; } li.found { background: #fef3c7; }
svg [data-post] { cursor: pointer; } svg.lit > * { opacity: 0.25; } svg.lit > .way { opacity: 1; }
#here { fill: #fde68a; fill-opacity: 0.35; pointer-events: none; }
</style>
<div id="picture">
@SVG@</div>
<div id="panel">
<input id="search" type="search" placeholder="search the lines of the trace" aria-label="search the lines of the trace">
<button id="next">next</button> <span id="hits"></span>
<p>The pointer, or the keys up and down, choose the moment. A click on a post, a MSG or a dispatch lights up its way; a click elsewhere ends that.</p>
<div id="way"></div>
<h2 id="moment"></h2>
<ul id="answers"></ul>
<div id="states"></div>
<h2>What the trace says of it</h2>
<ul id="lines"></ul>
</div>
<script type="application/json" id="data">@DATA@</script>
<script>
"use strict";
const data = JSON.parse(document.getElementById("data").textContent);
const svg = document.querySelector("svg"), byId = (id) => document.getElementById(id);
const here = document.createElementNS("http://www.w3.org/2000/svg", "rect");
here.id = "here"; here.setAttribute("x", 0); here.setAttribute("width", svg.getAttribute("width"));
svg.append(here);
let at = -1, word = "";

// How each side is behind a row: the last state that some row up to it has of the side.
const sides = {};
data.rows.forEach((row, place) => row.states.forEach(([link, side, state]) => (sides[[link, side]] ??= []).push([place, state])));
const sideAt = (link, side, place) => (sides[[link, side]] ?? []).filter((it) => it[0] <= place).at(-1);

function put(parent, name, text, class_) {
  const made = document.createElement(name);
  if (text !== undefined) made.textContent = text;
  if (class_) made.className = class_;
  parent.append(made);
  return made;
}

function showStates(place) {
  byId("states").replaceChildren();
  if (!data.played) put(byId("states"), "p", "The rules have another run of this script than the trace, so no state is shown: tools/run_trace.py tells the line.");
  for (const link of data.played ? data.shown : []) {
    const both = [0, 1].map((side) => sideAt(link, side, place) ?? [-1, {}]);
    const table = put(byId("states"), "table");
    const head = put(table, "tr", undefined, "head");
    ["", ...data.links[link]].forEach((name) => put(head, "th", name));
    for (const key of Object.keys(both[0][1])) {
      const line = put(table, "tr");
      put(line, "th", key);
      both.forEach(([since, state], side) => {
        const before = sideAt(link, side, since - 1);
        put(line, "td", state[key], since === place && before && before[1][key] !== state[key] ? "new" : "");
      });
    }
  }
}

function show(place, isToBeSeen) {
  if (place < 0 || place >= data.rows.length || place === at) return;
  at = place;
  const row = data.rows[at];
  here.setAttribute("y", row.from); here.setAttribute("height", row.to - row.from);
  byId("moment").textContent = `${row.words} (line ${row.line})`;
  byId("answers").replaceChildren();
  row.answers.forEach((answer) => put(byId("answers"), "li", answer));
  showStates(at);
  byId("lines").replaceChildren();
  row.lines.forEach((line) => put(byId("lines"), "li", line, word && line.includes(word) ? "found" : ""));
  if (isToBeSeen) window.scrollTo({ top: row.from + svg.getBoundingClientRect().top + window.scrollY - window.innerHeight / 3 });
}

svg.addEventListener("mousemove", (event) => {
  const y = event.clientY - svg.getBoundingClientRect().top;
  show(data.rows.findLastIndex((row) => row.from <= y), false);
});

svg.addEventListener("click", (event) => {
  const post = event.target.closest("[data-post]")?.dataset.post;
  svg.querySelectorAll(".way").forEach((it) => it.classList.remove("way"));
  svg.classList.toggle("lit", post !== undefined);
  byId("way").textContent = post === undefined ? "" : data.posts[post];
  if (post !== undefined) svg.querySelectorAll(`[data-post="${post}"]`).forEach((it) => it.classList.add("way"));
});

const hits = () => data.rows.map((row, place) => [row, place]).filter(([row]) => [row.words, ...row.lines].some((line) => line.includes(word))).map(([, place]) => place);

function search(isNext) {
  word = byId("search").value;
  const found = word ? hits() : [];
  byId("hits").textContent = word ? `${found.length} found` : "";
  const place = found.find((it) => (isNext ? it > at : it >= at)) ?? found[0];
  if (place !== undefined) { at = -1; show(place, true); }
}

byId("search").addEventListener("input", () => search(false));
byId("search").addEventListener("keydown", (event) => event.key === "Enter" && search(true));
byId("next").addEventListener("click", () => search(true));
document.addEventListener("keydown", (event) => {
  const step = { ArrowDown: 1, ArrowUp: -1 }[event.key];
  if (!step || event.target.id === "search") return;
  event.preventDefault();
  show(Math.max(0, Math.min(data.rows.length - 1, at + step)), true);
});
show(0, false);
</script>
</html>
"""
