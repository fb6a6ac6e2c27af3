"""A picture as a page, whose data is a line of JSON for each event, packet, arrow and band; and as a drawing, an SVG
without a script."""
from __future__ import annotations

import html
import json
import pathlib
import re
from collections.abc import Iterator

from . import wire
from .lanes import GUTTER, LINE, PAD, Lane
from .layout import Arrow, Picture, Row, Stripe

HERE = pathlib.Path(__file__).resolve().parent
STYLE, SCRIPT = "picture.css", "picture.js"
PLAIN = ("call", "reply", "quiet", "from", "bad")  # marks without a ground of their own


def line_of(value: object) -> str:
    """A value in a line; `<` is escaped, so that no text ends the element that it stands in."""
    return json.dumps(value, separators=(",", ":"), ensure_ascii=False).replace("<", "\\u003c")


def lane_of(picture: Picture, lane: Lane) -> dict:
    config = picture.run.config
    ends = [{"n": it.name, "x": lane.ends[it.path], "o": " ".join(it.options)} for it in config.of(lane.peer)]
    prefix = config.prefixes[lane.peer - 1].hex()
    return {"peer": lane.peer, "x": lane.left, "to": lane.right, "prefix": prefix, "ends": ends}


def records(picture: Picture) -> Iterator[str]:
    """The lines of a page: its head, then all else."""
    forms: dict[tuple[wire.Field, ...], int] = {}
    packets = [[forms.setdefault(tuple(wire.fields_of(it.octets, it.read)), len(forms)), it.octets.hex()] for it in picture.run.packets]
    run = picture.run
    yield line_of({"width": picture.width, "height": picture.height, "title": run.title.split("\n")[0], "intro": picture.intro,
                   "lanes": [lane_of(picture, it) for it in picture.lanes], "hidden": picture.hidden, "fault": run.fault})
    for fields in forms:
        yield line_of({"form": [[it.length, it.name, it.kind] for it in fields]})
    for packet, (form, octets), label in zip(run.packets, packets, picture.labels):
        sent = -1 if packet.sent is None else packet.sent
        came = packet.deliveries if packet.is_watched or packet.deliveries else None  # none where that is not known
        yield line_of({"packet": [packet.number, packet.sender, packet.to, sent, came, label, form, octets]})
    for row in picture.rows:
        yield line_of(record_of_row(row))
    for arrow in picture.arrows:
        yield line_of({"arrow": list(arrow)})
    for stripe in picture.stripes:
        yield line_of({"band": list(stripe)})


def record_of_row(row: Row) -> dict:
    """The numbers of packets that a reply ends with stand in the arrows too, but a reader compares it with the transcript."""
    found: dict = {"row": [row.y, row.height, row.event.line, row.event.peer, row.event.source, row.event.reply]}
    found["marks"] = [list(it if it.note else it[:-1]) for it in row.marks]
    for name, value in (("dots", [list(it) for it in row.dots]), ("states", row.states), ("captions", row.captions)):
        if value:
            found[name] = value
    return found


def page(picture: Picture, beside: str = "") -> str:
    """The whole page; or one that takes its style and its script from the folder `beside`, where that is named."""
    title, place = html.escape(picture.run.title.split("\n")[0]), html.escape(beside or ".")
    head = f'<!DOCTYPE html>\n<html lang="en">\n<meta charset="utf-8">\n<title>{title}</title>\n<link rel="stylesheet" href="{place}/{STYLE}">\n'
    data = '<script type="application/json" id="run">\n' + "\n".join(records(picture)) + "\n</script>\n"
    text = f'{head}{data}<div id="picture"></div>\n<script src="{place}/{SCRIPT}"></script>\n'
    return text if beside else whole(text)


def whole(text: str) -> str:
    """A page that takes its style and its script from a folder, with both in it."""
    style, script = (HERE / STYLE).read_text(), (HERE / SCRIPT).read_text()
    text = re.sub(rf'<link rel="stylesheet" href="[^"]*/{STYLE}">', lambda _: f"<style>\n{style}</style>", text, count=1)
    return re.sub(rf'<script src="[^"]*/{SCRIPT}"></script>', lambda _: f"<script>\n{script}</script>", text, count=1)


# The drawing.


def text(style: str, x: float, y: float, words: str, more: str = "") -> str:
    return f'<text class="{style}" x="{x:g}" y="{y:g}"{more}>{html.escape(words, quote=False)}</text>'


def drawn_lane(picture: Picture, lane: Lane) -> Iterator[str]:
    yield text("lane", (lane.left + lane.right) / 2, 20, f"peer {lane.peer}")
    for end in picture.run.config.of(lane.peer):
        x = lane.ends[end.path]
        yield text("end", x, 40, end.name + "+" * (end.path in picture.hidden))
        yield f'<line class="life" x1="{x}" y1="46" x2="{x}" y2="{picture.height - PAD}"/>'


def drawn_arrow(arrow: Arrow) -> Iterator[str]:
    """A line, or a loop to its own peer; a cross where it was lost, a head where it came; and what it says."""
    right = arrow.x2 >= arrow.x1
    if abs(arrow.x1 - arrow.x2) < LINE:
        path = f"M{arrow.x1} {arrow.y1}C{arrow.x1 + 70} {arrow.y1} {arrow.x2 + 70} {arrow.y2} {arrow.x2} {arrow.y2}"
    else:
        path = f"M{arrow.x1} {arrow.y1}L{arrow.x2} {arrow.y2}"
    is_lost = "lost" in arrow.style.split()
    yield f'<path class="arrow {arrow.style}" d="{path}"{"" if is_lost else " marker-end=%surl(#head)%s" % (chr(34), chr(34))}/>'
    if "repeated" in arrow.style.split():
        yield f'<path class="inner" d="{path}"/>'
    if is_lost:
        x, y = arrow.x2, arrow.y2
        yield f'<path class="cross" d="M{x - 5} {y - 5}L{x + 5} {y + 5}M{x - 5} {y + 5}L{x + 5} {y - 5}"/>'
        yield text("cross-text", x + (10 if right else -10), y + 4, "lost", "" if right else ' text-anchor="end"')
    if arrow.label:
        yield text("label", arrow.x1 + (8 if right else -8), arrow.y1 - 4, arrow.label, "" if right else ' text-anchor="end"')


def drawn_stripe(stripe: Stripe) -> Iterator[str]:
    yield f'<rect class="band {stripe.style}" x="{stripe.x + 1}" y="{stripe.y}" width="22" height="{max(stripe.end - stripe.y, 2)}" rx="3"/>'
    yield text("key", stripe.x + 12, stripe.y + 12, stripe.key[-3:])
    if stripe.owner and stripe.end - stripe.y > 26:
        yield text("key owner", stripe.x + 12, stripe.y + 23, stripe.owner)


def drawn_row(row: Row) -> Iterator[str]:
    for y, words in row.captions:
        yield text("caption", GUTTER, y, words)
    yield text("number", GUTTER - 12, row.y + PAD / 2 + 13, str(row.event.line))
    for mark in row.marks:
        if mark.style not in PLAIN:
            yield f'<rect class="chip {mark.style}" x="{mark.x}" y="{mark.y + 1}" width="{mark.width}" height="{LINE - 2}" rx="4"/>'
        yield text(f"mark {mark.style}", mark.x + 5, mark.y + 13, mark.text)
    for dot in row.dots:
        yield f'<circle class="dot {dot.style}" cx="{dot.x}" cy="{dot.y}" r="4"/>'


def drawing(picture: Picture) -> str:
    """An SVG of the whole run, for light and dark."""
    size = f'viewBox="0 0 {picture.width} {picture.height}" width="{picture.width}" height="{picture.height}"'
    lines = [f'<svg xmlns="http://www.w3.org/2000/svg" {size} class="whole">']
    style = (HERE / STYLE).read_text().partition("\nbody {")[0]
    lines += [f"<title>{html.escape(picture.run.title.split(chr(10))[0])}</title>", f"<style>\n{style}</style>"]
    lines.append('<defs><marker id="head" viewBox="0 0 8 8" refX="8" refY="4" markerWidth="8" markerHeight="8" orient="auto"'
                 ' markerUnits="userSpaceOnUse"><path class="arrowhead" d="M0 0L8 4L0 8z"/></marker></defs>')
    lines.append(f'<rect class="ground" width="{picture.width}" height="{picture.height}"/>')
    for lane in picture.lanes:
        lines += drawn_lane(picture, lane)
    lines += [text("caption", GUTTER, y, words) for y, words in picture.intro]
    for part in (map(drawn_stripe, picture.stripes), map(drawn_arrow, picture.arrows), map(drawn_row, picture.rows)):
        lines += [it for one in part for it in one]
    if picture.run.fault:
        lines.append(text("fault", GUTTER, picture.height - PAD - 4, picture.run.fault))
    return "\n".join([*lines, "</svg>", ""])
