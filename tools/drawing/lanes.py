"""Where the lanes of a picture stand: for each peer a line for each of its ends, columns for the bands of its readers'
instances, and a column of text. All lengths are pixels."""
from __future__ import annotations

import dataclasses
from collections.abc import Iterable

from .config import Config, End
from .instances import Band

CHARACTER, LINE, PAD = 7.2, 18, 8  # of a monospaced letter of 12 pixels; of a line of text; above and below those of a row
GUTTER, END, BAND, MARGIN = 46, 28, 24, 14
TEXT, NARROW = 340, 270  # a column of text, and one where there are more than two peers
GAP, LABEL = 300, 150  # what lies between two lanes; room for what a packet says
MOST_BANDS = 6  # columns of a reader


@dataclasses.dataclass
class Lane:
    """A peer's lane: where it begins, its ends' lines, and its column of text."""

    peer: int
    left: int
    right: int = 0
    text: int = 0  # where the column begins; its end, where texts end on the right of it
    is_mirrored: bool = False
    ends: dict[str, int] = dataclasses.field(default_factory=dict)
    bands: dict[str, int] = dataclasses.field(default_factory=dict)  # where the columns of a reader begin


class Columns:
    """The columns of a reader's bands: each goes into the first that is free, and some into none."""

    def __init__(self, bands: Iterable[Band]):
        self.of: dict[Band, int] = {}
        until: list[int | None] = []
        last: dict[tuple[bytes, int], int] = {}
        for band in bands:
            place = last.get((band.key, band.handle))
            if place is None or until[place] is None or until[place] > band.since:
                free = [it for it, end in enumerate(until) if end is not None and end <= band.since]
                place = free[0] if free else len(until)
            if place == MOST_BANDS:
                continue
            until[place : place + 1] = [band.until]
            self.of[band] = last[band.key, band.handle] = place
        self.count = len(until)


def stand(lane: Lane, ends: list[End], columns: dict[str, Columns]) -> int:
    """The lines of a lane's ends, and where the lane ends."""
    at = lane.left
    for end in ends:
        width = BAND * columns[end.path].count if end.kind == "r" else 0
        if lane.is_mirrored:
            lane.bands[end.path], lane.ends[end.path] = at, at + width + END // 2
        else:
            lane.bands[end.path], lane.ends[end.path] = at + END, at + END // 2
        at += END + width
    return max(at, lane.left + END)


def text_width(config: Config) -> int:
    return TEXT if len(config.prefixes) <= 2 else NARROW


def lanes_of(config: Config, columns: dict[str, Columns]) -> tuple[list[Lane], int]:
    """The lanes, and how wide the picture is. The first of several has its text on the left, and the others on the right."""
    found: list[Lane] = []
    at, text, count = GUTTER, text_width(config), len(config.prefixes)
    for peer in config.peers:
        lane = Lane(peer, at, is_mirrored=peer == 1 < count)
        if lane.is_mirrored:
            lane.left, lane.text = at + text + MARGIN, at + text
            lane.right = stand(lane, config.of(peer)[::-1], columns)
            at = lane.right + GAP
        else:
            lane.right = stand(lane, config.of(peer), columns)
            lane.text = lane.right + (MARGIN if peer == count else LABEL)
            at = lane.text + text + (0 if peer == count else LABEL)
        found.append(lane)
    return found, max(at + MARGIN, NARROW)


def width_of(text: str) -> int:
    return int(len(text) * CHARACTER + 0.999)
