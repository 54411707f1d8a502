"""Draws what a capture tells as a ladder: time goes down, each connection is a lane with a rail for either end, and each frame is an
arrow from its sender's rail to the other one. Frames of one session have its colour. `svg(events)` gives the picture of `Event`s of
tools/conversation.py; the same events always give the same picture.
"""
from xml.sax.saxutils import escape

MARGIN, TIMES, LANE, GAP, SLOT, HEAD = 14, 96, 300, 310, 19, 92  # GAP: from a lane to the next one, in which marks stand
MOST_ROWS = 800  # viewers and printers take twice that
BESIDE = 56  # for half of an end's name
COLOURS = ("#2563ab", "#b45309", "#0f766e", "#9d174d", "#6d28d9", "#4d7c0f", "#be123c", "#0369a1")
PLAIN = "#6b7280"
MOST_LABEL, MOST_NOTE, MOST_MARKS = 46, 52, 48  # letters
STYLE = """
text { font-family: 'DejaVu Sans', Verdana, Arial, sans-serif; font-size: 11px; fill: #1f2937; }
.title { font-size: 12.5px; font-weight: bold; } .end { font-weight: bold; } .time { fill: #6b7280; font-size: 10.5px; }
.note { fill: #374151; font-style: italic; } .mark { fill: #b91c1c; }
.halo { stroke: #ffffff; stroke-width: 3.5px; stroke-linejoin: round; paint-order: stroke; }
""".strip()
SHOWN = {  # of a frame: what stands behind its tag
    "MESSAGE": ("seq", "type"), "ACK": ("seen",), "CLIENT_IDENT": ("global",), "SERVER_IDENT": ("global",),
    "SESSION_RECONNECT": ("global", "connect", "seen"), "SESSION_RECONNECT_OK": ("seen",), "SESSION_RETRY": ("connect",),
    "SESSION_RETRY_GLOBAL": ("global",), "SESSION_RESET": ("full",),
}


def short(text, most):
    return text if len(text) <= most else text[: most - 1] + "…"


def label_of(frame):
    facts = [f"{name}={str(frame[name]).lower()}" for name in SHOWN.get(frame["tag"], ()) if name in frame]
    return " ".join([frame["tag"], *facts, *(["not readable"] if "fault" in frame else [])])


def chosen(events):
    """The events that are drawn, and how many of the middle are left out."""
    if len(events) <= MOST_ROWS:
        return events, None, 0
    half = MOST_ROWS // 2
    return events[:half] + events[-half:], half, len(events) - 2 * half


class Ladder:
    def __init__(self, events):
        self.events, self.left_out_at, self.left_out = chosen(events)
        self.connections = list(dict.fromkeys(event.connection for event in self.events))
        self.parts = []

    def rails(self, connection):
        left = MARGIN + TIMES + BESIDE + self.connections.index(connection) * (LANE + GAP)
        return left, left + LANE

    def text(self, x, y, said, kind="", anchor="start"):
        self.parts.append(f'<text x="{x}" y="{y}" class="{kind}" text-anchor="{anchor}">{escape(said)}</text>')

    def sessions(self):
        """A name for each colour."""
        at = MARGIN + TIMES
        for session in dict.fromkeys(event.session for event in self.events if event.session):
            colour, said = COLOURS[session.number % len(COLOURS)], f"session {session.number}"
            self.parts.append(f'<line x1="{at}" y1="{MARGIN + 6}" x2="{at + 22}" y2="{MARGIN + 6}" stroke="{colour}" stroke-width="3"/>')
            self.text(at + 28, MARGIN + 10, said)
            at += 40 + 7 * len(said)

    def heads(self, bottom):
        for connection in self.connections:
            left, right = self.rails(connection)
            self.text((left + right) // 2, MARGIN + 34, f"connection {connection.number}", "title", "middle")
            for x, end in ((left, connection.opener), (right, connection.acceptor)):
                self.text(x, HEAD - 14, end, "end", "middle")
                self.parts.append(f'<line x1="{x}" y1="{HEAD - 6}" x2="{x}" y2="{bottom}" stroke="#cbd5e1" stroke-width="2"/>')

    def event(self, event, y):
        left, right = self.rails(event.connection)
        colour = COLOURS[event.session.number % len(COLOURS)] if event.session else PLAIN
        self.text(MARGIN + TIMES - 12, y, f"{event.time:.6f}", "time", "end")
        if event.frame is None:
            self.text((left + right) // 2, y, short(event.note, MOST_NOTE), "note halo", "middle")
            return
        here, there = (left, right) if event.source == event.connection.opener else (right, left)
        way = 1 if there > here else -1
        self.parts.append(f'<line x1="{here}" y1="{y + 3}" x2="{there - 7 * way}" y2="{y + 3}" stroke="{colour}" stroke-width="1.6"/>')
        self.parts.append(f'<polygon points="{there},{y + 3} {there - 8 * way},{y - 1} {there - 8 * way},{y + 7}" fill="{colour}"/>')
        self.text((left + right) // 2, y, short(label_of(event.frame), MOST_LABEL), "halo", "middle")
        if event.marks or event.unlike:
            self.text(right + 10, y + 6, short(", ".join(event.marks + event.unlike), MOST_MARKS), "mark halo")

    def draw(self):
        y = HEAD + 12
        rows = []
        for place, event in enumerate(self.events):
            if place == self.left_out_at:
                rows.append((None, y))
                y += 2 * SLOT
            rows.append((event, y))
            y += SLOT
        self.sessions()
        self.heads(y)
        for event, at in rows:
            self.parts.append("<g>")
            if event is None:
                self.text(MARGIN + TIMES, at + SLOT // 2, f"{self.left_out} events aren't drawn: --from, --to and --connection choose", "mark")
            else:
                self.event(event, at)
            self.parts.append("</g>")
        wide = MARGIN * 2 + TIMES + BESIDE + max(1, len(self.connections)) * (LANE + GAP)
        head = f'<svg xmlns="http://www.w3.org/2000/svg" width="{wide}" height="{y + MARGIN}" viewBox="0 0 {wide} {y + MARGIN}">'
        paper = f'<rect width="{wide}" height="{y + MARGIN}" fill="#ffffff"/>'
        return "\n".join([head, f"<style>{STYLE}</style>", paper, *self.parts, "</svg>"]) + "\n"


def svg(events):
    """The picture of these events, in order of time."""
    return Ladder(events).draw()
