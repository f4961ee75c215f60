"""Draws the steps of a trace as lanes, one below the other in time: who sent, took in, published, looked at and commanded what, and when."""
import dataclasses
import html
import re

from tracing.objects import PATH, Objects, value_of
from tracing.reasons import TURN, Followed, not_understood
from tracing.steps import KINDS

LANE, ROW, TOP, LEFT = 150, 22, 40, 60
# How high a row is that stands for steps that were not open or brought nothing.
LOW = 12
# How many lines are looked at for a worker's next step, and how long a reply is at most in which keys are looked for.
AHEAD, LONG = 200, 200
# How wide a picture is at most, and about how wide a letter is.
WIDEST, LETTER = 1000, 6.2
STYLE = """
svg { font: 11px sans-serif; background: #fff; display: block }
.lane { stroke: #ddd } .head { font-weight: bold; font-size: 10px; text-anchor: middle } .number { fill: #999; text-anchor: end }
.step line, .step path { stroke: #246; stroke-width: 1.5; fill: none } .step circle { fill: #246 }
.step text { fill: #123; text-anchor: middle; paint-order: stroke; stroke: #fff; stroke-width: 3px } .step text.number { text-anchor: end; fill: #999 }
.bad line, .bad path { stroke: #b22 } .bad circle { fill: #b22 } .bad text { fill: #b22 }
.lost line { stroke-dasharray: 4 3 } .closed text { fill: #888; font-style: italic; font-size: 9px }
.band { fill: #fdd } .step:hover rect.hit, .step:focus rect.hit, .step.chosen rect.hit { fill: #ffc } rect.hit { fill: transparent }
.step:focus { outline: none }
"""


@dataclasses.dataclass(frozen=True)
class Mark:
    """What a step looks like: an arrow between two lanes or a mark on one, its text, and its look."""

    start: str
    end: str
    text: str
    look: str = ""


@dataclasses.dataclass(frozen=True)
class Row:
    """A row of the picture: a step, or some one after another that were not open or brought nothing."""

    steps: tuple
    mark: Mark
    key: str
    told: str

    def height(self):
        return LOW if self.mark.look == "closed" else ROW


def lanes_of(rows):
    """Returns the lanes that marks stand on, from left to right."""
    used = {lane for row in rows for lane in (row.mark.start, row.mark.end)} | {"client", "server"}
    kinds = [lane for kind in KINDS for lane in (f"link {kind}", f"informer {kind}")]
    workers = sorted((it for it in used if it.startswith("worker ")), key=lambda it: int(it.split(" ")[1]))
    return [it for it in ("client", "server", *kinds, "queue", *workers) if it in used]


def rows_of(steps):
    """Returns the rows of steps, and the changes of the objects that they speak of."""
    followed, objects, rows, quiet, idle = Followed(), Objects(), [], [], Idle()
    for at, step in enumerate(steps):
        key = key_of(step, followed)
        row = Row((step,), mark_of(step), key, told_of(step, followed, steps[at + 1:at + 1 + AHEAD]))
        if not step.is_open() or idle.is_quiet(step):
            quiet.append(row)
        else:
            rows += folded(quiet)
            rows, quiet = rows + [row], []
            objects.take(len(rows) - 1, step)
        if step.is_open():
            followed.note(step)
    return rows + folded(quiet), objects.changes


def folded(quiet):
    """Returns one row in the place of several."""
    if len(quiet) < 2:
        return quiet
    closed = sum(not it.steps[0].is_open() for it in quiet)
    said = [f"{closed} not open"] * (closed > 0) + [f"{len(quiet) - closed} with nothing new"] * (closed < len(quiet))
    mark = Mark("client", "client", ", ".join(said), "closed")
    return [Row(tuple(it.steps[0] for it in quiet), mark, " ".join(sorted({it.key for it in quiet} - {""})), "\n".join(it.told for it in quiet))]


class Idle:
    """Tells steps that were open and brought nothing: no frame to send or to read, nothing new to publish, no key to take."""

    def __init__(self):
        self.unread, self.published = {}, {}

    def is_quiet(self, step):
        verb, *rest = step.words
        told = step.told.split(" ")
        if verb == "take":
            return told[-1] == "none"
        if verb == "send":
            self.unread[rest[0]] = self.unread.get(rest[0], 0) + int(told[2])
            return told[2] == "0"
        if verb == "deliver" and len(told) == 3:
            was = self.unread.get(rest[0], 0)
            self.unread[rest[0]] = 0 if rest[1] == "all" else was
            return was == 0
        if verb == "publish":
            was, self.published[rest[0]] = self.published.get(rest[0]), told
            return was == told
        if verb == "restart":
            self.published = {}
        return False


def key_of(step, followed):
    """Returns the keys that a step is for: of a worker's turn, and of what it says itself."""
    said = re.findall(r"(?:configmaps|pods|replicasets|deployments)/[^ /]+/[^ ?]+", step.told if len(step.told) < LONG else "")
    path = PATH.fullmatch(step.words[2]) if step.words[0] == "request" and len(step.words) > 2 else None
    if path and not path[3] and step.told.startswith("201 "):
        name = value_of(step.told)[1].get("metadata", {}).get("name", "")
        said.append(f"{path[2]}/{path[1]}/{name}")
    elif path and path[3]:
        said.append(f"{path[2]}/{path[1]}/{path[3]}")
    return " ".join(dict.fromkeys([*filter(None, [followed.key(step)]), *said]))


def told_of(step, followed, ahead):
    """Returns a step's line, what came of it, and where it was not open or not understood, why."""
    lines = [f"line {step.number}: {step.line}", *step.outcome]
    if step.told == "no step":
        lines.append(f"not open: {followed.why(step, later_of(step, ahead))}")
    elif not step.is_open():
        lines.append(f"not understood: {not_understood(step.line)}")
    return "\n".join(lines)


def later_of(step, ahead):
    """Returns the next step of the same worker that is open."""
    found = (it.line for it in ahead if it.is_open() and it.words[0] in TURN and it.words[1:2] == step.words[1:2])
    return next(found, "")


def behind(revision, step):
    """Says a revision, and where the server is further, how far it is."""
    return f"{revision} of {step.present}" if revision.isdigit() and int(revision) < step.present else revision


def mark_of(step):
    """Returns what a step looks like."""
    verb, *rest = step.words
    told = step.told.split(" ")
    if not step.is_open():
        return Mark("client", "client", "not open" if step.told == "no step" else "not understood", "closed")
    if verb == "config" or verb == "request" and rest[:1] == ["AT"]:
        return Mark("client", "client", " ".join(rest if verb == "config" else rest[1:]), "closed")
    makers = {"request": requested, "compact": requested, "restart": restarted, "tick": restarted}
    makers |= dict.fromkeys(("list", "stream", "watch", "send", "deliver", "cut", "publish", "handle"), followed)
    makers |= dict.fromkeys(("take", "look", "satisfied", "read", "expect", "finish"), turned)
    makers["issue"] = issued
    return makers[verb](step, verb, rest, told) if verb in makers else Mark("client", "client", step.told[:30], "closed")


def requested(step, verb, rest, told):
    what = f"{rest[0]} {'/'.join(rest[1].split('?')[0].split('/')[-2:])}" if verb == "request" and len(rest) > 1 else " ".join([verb, *rest])
    return Mark("client", "server", f"{what[:34]} → {told[0]}, now {step.present}", "" if told[0].startswith("2") else "bad")


def restarted(step, verb, rest, told):
    return Mark("", "", step.told, "band" if verb == "restart" else "")


def counted(number):
    """Says how many objects there are."""
    return f"{number} object{'' if number == '1' else 's'}"


def followed(step, verb, rest, told):
    """What happens between the server, a link and an informer."""
    kind = rest[0]
    link, informer = f"link {kind}", f"informer {kind}"
    look = "bad" if told[-1] in ("expired", "unreadable") or told[0] == "expired" else ""
    return {
        "list": lambda: Mark("server", informer, f"list at {told[2]}: {counted(told[3])}"),
        "stream": lambda: Mark(informer, "server", f"stream of initial events at {told[2]}"),
        "watch": lambda: Mark(informer, "server", f"watch from {told[2]}" if not look else "watch: expired", look),
        "send": lambda: Mark("server", link, "bookmark" if rest[1] == "bookmark" else f"{told[2]} sent"),
        "deliver": lambda: Mark(link, informer, f"took in {behind(told[2], step)}{' ' + told[3] if look else ''}", look),
        "cut": lambda: Mark(link, link, f"cut at {told[2]}", "bad"),
        "publish": lambda: Mark(informer, informer, f"published {behind(told[2], step)}: {counted(told[3])}"),
        "handle": lambda: Mark(informer, "queue", f"{told[2]} keys"),
    }[verb]()


def turned(step, verb, rest, told):
    """What happens in a worker's turn, but for its commands."""
    worker = f"worker {int(rest[0])}"
    return {
        "take": lambda: Mark("queue", worker, " ".join(told[2:])),
        "look": lambda: Mark(f"informer {rest[1]}", worker, f"looks at {behind(told[3], step)}"),
        "satisfied": lambda: Mark("queue", worker, f"satisfied: {told[2]}"),
        "read": lambda: Mark("server", worker, f"reads {told[2]}: {told[3]}"),
        "expect": lambda: Mark(worker, "queue", f"expects +{told[2]} -{told[3]}"),
        "finish": lambda: Mark(worker, "queue", told[2], "bad" if told[2] == "retry" else ""),
    }[verb]()


def issued(step, verb, rest, told):
    """A command: its answer, or where it was lost."""
    worker, text = f"worker {int(rest[0])}", f"{told[2]} {told[3]} → {told[4]}"
    if told[4] == "lost":
        return Mark(worker, "server", f"{told[2]} {told[3]}, {'answer lost' if rest[1] == 'lost' else 'dropped'}", "bad lost")
    return Mark(worker, "server", text + (f", now {step.present}" if told[4].startswith("2") else ""), "" if told[4].startswith("2") else "bad")


def drawn(mark, at, width):
    """Returns the drawing of a mark, at the height 0."""
    if not mark.start:
        fill = f'<rect class="band" x="{LEFT}" y="{-ROW // 2}" width="{width - LEFT}" height="{ROW}"/>' if mark.look == "band" else ""
        return f'{fill}<line x1="{LEFT}" y1="0" x2="{width}" y2="0"/><text x="{LEFT + 60}" y="-4">{html.escape(mark.text)}</text>'
    start, end = at[mark.start], at[mark.end]
    room = len(mark.text) * LETTER / 2
    center = max(LEFT + room, min((start + end) / 2, width - room))
    text = f'<text x="{center:.0f}" y="{4 if mark.look == "closed" else -3}">{html.escape(mark.text)}</text>'
    if start == end:
        sign = f'<path d="M{start - 4:.0f} -2l8 8m0 -8l-8 8"/>' if mark.look == "bad" else f'<circle cx="{start:.0f}" cy="3" r="3.5"/>'
        return ("" if mark.look == "closed" else sign) + text
    stop = (start + end) / 2 if "dropped" in mark.text else end
    tip = 6 if stop > start else -6
    return f'<line x1="{start:.0f}" y1="3" x2="{stop:.0f}" y2="3"/><path d="M{stop - tip:.0f} -1L{stop:.0f} 3L{stop - tip:.0f} 7"/>{text}'


def heads(at):
    """Returns the drawing of the lanes' names, each in one line or two."""
    parts = []
    for lane, x in at.items():
        first, _, second = lane.partition(" ")
        below = f'<tspan x="{x:.0f}" dy="13">{second}</tspan>' if second else ""
        parts.append(f'<text class="head" x="{x:.0f}" y="14">{first}{below}</text>')
    return "".join(parts)


def lines_of(row):
    """Returns the numbers of a row's lines, as `7` or `7-12`."""
    numbers = [step.number for step in row.steps]
    return str(numbers[0]) if len(numbers) == 1 else f"{numbers[0]}-{numbers[-1]}"


def drawn_rows(rows, at, width, top):
    """Returns the drawings of rows, each a group that names its lines."""
    parts, y = [], top
    for row in rows:
        y, numbers, high = y + row.height(), lines_of(row), row.height()
        parts.append(f'<g class="step {row.mark.look}" tabindex="0" data-line="{numbers}" data-high="{high}" data-key="{html.escape(row.key)}" transform="translate(0 {y})">')
        parts.append(f"<title>{html.escape(row.told)}</title>")
        parts.append(f'<rect class="hit" x="0" y="{6 - high}" width="{width}" height="{high}"/>')
        parts.append(f'<text class="number" x="{LEFT - 8}" y="4">{numbers}</text>{drawn(row.mark, at, width)}</g>')
    return parts


def parts_of(rows):
    """Returns where the lanes of rows stand, and how wide they are together."""
    lanes = lanes_of(rows)
    lane = min(LANE, (WIDEST - LEFT) / len(lanes))
    return {name: LEFT + lane * (place + 0.5) for place, name in enumerate(lanes)}, round(LEFT + lane * len(lanes))


def svg(rows, with_heads=True):
    """Returns rows as an SVG picture."""
    at, width = parts_of(rows)
    top = TOP if with_heads else 0
    height = top + sum(row.height() for row in rows) + ROW
    parts = [f'<svg xmlns="http://www.w3.org/2000/svg" width="{width}" height="{height}" viewBox="0 0 {width} {height}"><style>{STYLE}</style>']
    parts += [f'<line class="lane" x1="{x:.0f}" y1="{max(top - 10, 0)}" x2="{x:.0f}" y2="{height}"/>' for x in at.values()]
    parts += [heads(at)] if with_heads else []
    return "\n".join([*parts, *drawn_rows(rows, at, width, top), "</svg>"])


def svg_of_heads(rows):
    """Returns the lanes' names alone, as an SVG picture."""
    at, width = parts_of(rows)
    return f'<svg xmlns="http://www.w3.org/2000/svg" width="{width}" height="32" viewBox="0 0 {width} 32">{heads(at)}</svg>'
