"""A run as a picture: rows for its events, arrows for its packets, bands for instances, each at its place in pixels. What
shows it, a page or a drawing, only has to draw it."""
from __future__ import annotations

import dataclasses
import textwrap
from typing import NamedTuple

from . import wire
from .config import End
from .events import Event, Packet, Run
from .instances import Band
from .lanes import BAND, GUTTER, LINE, MARGIN, PAD, Columns, Lane, lanes_of, text_width, width_of
from .story import Follower, Piece, Told

HEAD, CAPTION, SMALL, CHIP, BETWEEN = 58, 17, 6.9, 10, 5
WIDEST = 1_050  # of a caption
LONGEST = 44  # letters of a piece that are shown


class Mark(NamedTuple):
    """A piece of text of a row, at its place."""

    style: str
    x: int
    y: int
    width: int
    text: str
    note: str


class Dot(NamedTuple):
    """What a reader's line shows of an event: lost, held or placed, and whether the place moved."""

    style: str
    x: int
    y: int


@dataclasses.dataclass
class Row:
    event: Event
    y: int
    height: int
    captions: list[tuple[int, str]]
    marks: list[Mark] = dataclasses.field(default_factory=list)
    dots: list[Dot] = dataclasses.field(default_factory=list)
    states: dict[str, str] = dataclasses.field(default_factory=dict)


class Arrow(NamedTuple):
    """A packet on one of its ways, from the event that sent it to the one at which it came; -1 for none of these."""

    style: str
    packet: int
    sent: int
    came: int
    x1: int
    y1: int
    x2: int
    y2: int
    label: str


class Stripe(NamedTuple):
    """A band of an instance, from one event to another, or to the end, which is -1."""

    style: str
    x: int
    y: int
    end: int
    since: int
    until: int
    key: str
    owner: str
    note: str


@dataclasses.dataclass
class Picture:
    run: Run
    lanes: list[Lane]
    width: int
    height: int
    rows: list[Row]
    arrows: list[Arrow]
    stripes: list[Stripe]
    labels: list[str]  # what each packet says
    intro: list[tuple[int, str]]  # the comments of the head, each line with its height
    hidden: list[str]  # readers of which not all instances are shown


def cut(text: str) -> str:
    return text if len(text) <= LONGEST else f"{text[: LONGEST - 2]}.."


def overtakers(run: Run) -> set[int]:
    """The packets that came before one which the same peer had sent earlier to the same peer."""
    found, latest = set(), {}
    for packet in run.packets:
        if packet.deliveries and packet.sent is not None:
            way, came = (packet.sender, run.events[packet.deliveries[0]].peer), packet.deliveries[0]
            if latest.get(way, -1) > came:
                found.add(packet.number)
            latest[way] = max(latest.get(way, -1), came)
    return found


class Layout:
    """A picture in the making."""

    def __init__(self, run: Run):
        self.run = run
        follower = Follower(run)
        self.told = [follower.step(at, it) for at, it in enumerate(run.events)]
        self.bands = {path: it.all_bands() for path, it in follower.instances.items()}
        self.columns = {path: Columns(it) for path, it in self.bands.items()}
        self.lanes, self.width = lanes_of(run.config, self.columns)
        self.rows: list[Row] = []
        self.labels = [wire.label_of(it.read) for it in run.packets]

    def lane(self, peer: int) -> Lane | None:
        return self.lanes[peer - 1] if peer in self.run.config.peers else None

    def picture(self) -> Picture:
        at, intro = self.captions(self.run.title.split("\n"), HEAD)
        for event, told in zip(self.run.events, self.told):
            self.rows.append(self.row(event, told, at))
            at = self.rows[-1].y + self.rows[-1].height
        at += LINE if self.run.fault else 0
        arrows, hidden = self.arrows(), [path for path, it in self.columns.items() if len(it.of) < len(self.bands[path])]
        stripes = [self.stripe(path, it, at) for path, bands in self.bands.items() for it in bands if it in self.columns[path].of]
        return Picture(self.run, self.lanes, self.width, at + MARGIN, self.rows, arrows, stripes, self.labels, intro, hidden)

    def captions(self, paragraphs: list[str], at: int) -> tuple[int, list[tuple[int, str]]]:
        """Paragraphs in lines from a height on: where they end, and the lines, each with its height."""
        found = []
        for paragraph in paragraphs:
            for line in textwrap.wrap(paragraph, int(min(self.width - GUTTER - MARGIN, WIDEST) / SMALL)):
                at += CAPTION
                found.append((at, line))
        return at + (PAD if found else 0), found

    # Rows.

    def row(self, event: Event, told: Told, at: int) -> Row:
        y, captions = self.captions(event.captions, at)
        row = Row(event, y, 0, captions, states=told.states)
        lane = self.lane(event.peer)
        lines = self.flow(told.pieces)
        for number, line in enumerate(lines):
            self.set_line(row, lane, line, row.y + PAD // 2 + LINE * number)
        row.height = max(len(lines), len(event.sent), 1) * LINE + PAD
        if lane and event.brought is not None:
            self.set_dot(row, event, told)
        return row

    def flow(self, pieces: list[Piece]) -> list[list[tuple[Piece, str, int]]]:
        """Pieces in lines that the column has room for, each with its text and its width."""
        lines: list[list[tuple[Piece, str, int]]] = [[]]
        used = 0
        for it in pieces:
            text = cut(it.text)
            width = width_of(text) + CHIP
            if lines[-1] and used + width > text_width(self.run.config):
                lines.append([])
                used = 0
            lines[-1].append((it, text, width))
            used += width + BETWEEN
        return lines

    def set_line(self, row: Row, lane: Lane | None, line: list[tuple[Piece, str, int]], y: int) -> None:
        whole = sum(width for _, _, width in line) + BETWEEN * (len(line) - 1)
        x = GUTTER if lane is None else lane.text - whole if lane.is_mirrored else lane.text
        for piece, text, width in line:
            note = piece.note or (piece.text if text != piece.text else "")
            row.marks.append(Mark(piece.style, x, y, width, text, note))
            x += width + BETWEEN

    def set_dot(self, row: Row, event: Event, told: Told) -> None:
        """On the line of the reader, or of the writer, where the packet arrives."""
        x, y = self.arrival(self.run.packet(event.brought or 0), event.peer), row.y + (PAD + LINE) // 2
        styles = {it.style for it in told.pieces}
        style = next((it for it in ("lost", "held", "place", "acked") if it in styles), "quiet")
        row.dots.append(Dot(f"{style} moved" if "place" in styles else style, x, y))

    # Arrows.

    def ends_of(self, packet: Packet) -> tuple[bytes, bytes, str]:
        """The entities of the reader and of the writer that a packet names first, and what it says first."""
        said = wire.said_by(packet.read)
        return (said[0].reader, said[0].writer, said[0].kind) if said else (b"", b"", "other")

    def departure(self, packet: Packet) -> int | None:
        reader, writer, kind = self.ends_of(packet)
        lane = self.lane(packet.sender)
        entity, letter = (reader, "r") if kind == "acknack" else (writer, "w")
        return self.at_end(lane, letter, entity, 0) if lane else None

    def arrival(self, packet: Packet, peer: int) -> int:
        """The line at which a packet arrives at a peer."""
        reader, writer, kind = self.ends_of(packet)
        lane = self.lane(peer)
        if lane is None:
            return GUTTER
        if kind == "acknack":
            return self.at_end(lane, "w", writer, 0)
        source = next((it for it in self.run.config.of(packet.sender, "w") if it.entity == writer), None)
        return self.at_end(lane, "r", reader, source.topic if source else 0)

    def at_end(self, lane: Lane, kind: str, entity: bytes, topic: int) -> int:
        ends = self.run.config.of(lane.peer, kind)
        named = [it for it in ends if it.entity == entity] or [it for it in ends if it.topic == topic] or ends
        return lane.ends[named[0].path] if named else (lane.left + lane.right) // 2

    def y_sent(self, packet: Packet) -> int:
        row = self.rows[packet.sent or 0]
        return row.y + PAD // 2 + LINE * row.event.sent.index(packet.number) + LINE // 2

    def y_came(self, at: int) -> int:
        return self.rows[at].y + (PAD + LINE) // 2

    def arrows(self) -> list[Arrow]:
        crossing = overtakers(self.run)
        return [arrow for packet in self.run.packets for arrow in self.arrows_of(packet, packet.number in crossing)]

    def arrows_of(self, packet: Packet, is_crossing: bool) -> list[Arrow]:
        kind, label = wire.kind_of(packet.read), self.labels[packet.number - 1]
        start = self.departure(packet)
        if packet.sent is None:
            return [self.from_outside(packet, it, kind, label if number == 0 else "", number > 0) for number, it in enumerate(packet.deliveries)]
        x1, y1 = start if start is not None else GUTTER, self.y_sent(packet)
        x2 = self.arrival(packet, packet.to) if packet.to else x1 + GUTTER
        if not packet.deliveries and not packet.is_watched:
            return [Arrow(f"{kind} unwatched", packet.number, packet.sent, -1, x1, y1, x2, y1, label)]
        if not packet.deliveries:
            half = x1 + (x2 - x1) * 3 // 5 if x1 != x2 else x1 + 40
            return [Arrow(f"{kind} lost", packet.number, packet.sent, -1, x1, y1, half, y1 + 8, label)]
        found = []
        for number, it in enumerate(packet.deliveries):
            peer = self.run.events[it].peer
            styles = [kind, *(["repeated"] if number else ["crossing"] if is_crossing else []), *(["strayed"] if peer != packet.to else [])]
            to = self.arrival(packet, peer)
            found.append(Arrow(" ".join(styles), packet.number, packet.sent, it, x1, y1, to, self.y_came(it), "" if number else label))
        return found

    def from_outside(self, packet: Packet, at: int, kind: str, label: str, is_repeated: bool) -> Arrow:
        """What came from a peer that was not recorded stands at the height of its delivery."""
        x2, y = self.arrival(packet, self.run.events[at].peer), self.y_came(at)
        start = self.departure(packet)
        x1 = start if start is not None else x2 - 120 if x2 > 200 else x2 + 120
        return Arrow(f"{kind} repeated" if is_repeated else kind, packet.number, -1, at, x1, y, x2, y, label)

    # Bands.

    def stripe(self, path: str, band: Band, end: int) -> Stripe:
        lane = self.lanes[int(path.split(".")[0]) - 1]
        place = self.columns[path].of[band]
        columns = self.columns[path].count
        x = lane.bands[path] + BAND * (columns - 1 - place if lane.is_mirrored else place)
        until = end if band.until is None else self.y_came(band.until)
        key = band.key.hex().lstrip("0") or "0"
        owner = band.owner.split(".")[-1] if band.owner else ""
        owned = f", owned by {band.owner}" if band.owner else ", without an owner" if self.end(path).is_exclusive else ""
        note = f"{path}: instance {key}, handle {band.handle}: {band.state}{owned}"
        style = {"ALIVE": "alive", "DISPOSED": "disposed", "NO_WRITERS": "no-writers"}[band.state]
        return Stripe(style, x, self.y_came(band.since), until, band.since, -1 if band.until is None else band.until, key, owner, note)

    def end(self, path: str) -> End:
        return next(it for it in self.run.config.ends if it.path == path)


def picture_of(run: Run) -> Picture:
    return Layout(run).picture()
