"""The tables of docs/COST.md as charts, from the same lines: what a sample takes by how many were written, and a turn beside
other products. bench/table asks here."""
import html
from collections.abc import Iterator

Row = dict[str, str]
STAGES = {"write": "write", "deliver": "deliver", "repair": "acknowledge or repair", "take": "take"}
NAMES = {"rust": "here", "c": "here, in C", "cyclonedds": "Cyclone DDS", "fastdds": "Fast DDS"}
STYLE = """<style>
:root { --ground: #fff; --text: #1f2328; --quiet: #6b7280; --a: #1d5fbf; --b: #16794a; --c: #a05a00; --d: #8a4fbf; }
@media (prefers-color-scheme: dark) {
  :root { --ground: #14171b; --text: #e3e6ea; --quiet: #97a0ab; --a: #6ea8ff; --b: #5ccb93; --c: #f0ad5e; --d: #c79bf2; }
}
text { font: 12px system-ui, "DejaVu Sans", sans-serif; fill: var(--text); }
.quiet, .under { fill: var(--quiet); font-size: 10px; }
.under { text-anchor: middle; }
.ground { fill: var(--ground); }
.part0 { fill: var(--a); } .part1 { fill: var(--b); } .part2 { fill: var(--c); } .part3 { fill: var(--d); }
line { stroke: var(--quiet); stroke-width: 0.5; }
</style>"""
PANEL, HEIGHT, COLUMNS = 240, 150, 4  # of the panels of growth
BARS, SCALE = 620, 18  # how long the longest bar of the turns is, and how high each is


def text(x: float, y: float, words: str, style: str = "") -> str:
    return f'<text x="{x:g}" y="{y:.4g}"{f" class={chr(34)}{style}{chr(34)}" if style else ""}>{html.escape(words, quote=False)}</text>'


def bar(x: float, y: float, width: float, height: float) -> str:
    return f"M{x:g},{y:.1f}h{width:.1f}v{height:.1f}h{-width:.1f}z"


def bars(of: dict[int, list[str]]) -> Iterator[str]:
    """The bars of each part, as one path in its colour."""
    yield from (f'<path class="part{part}" d="{"".join(drawn)}"/>' for part, drawn in of.items())


def drawing(title: str, width: int, height: int, parts: list[str]) -> str:
    head = f'<svg xmlns="http://www.w3.org/2000/svg" viewBox="0 0 {width} {height}" width="{width}" height="{height}">'
    ground = f'<rect class="ground" width="{width}" height="{height}"/>'
    return "\n".join([head, f"<title>{html.escape(title)}</title>", STYLE, ground, *parts, "</svg>", ""])


def legend(labels: list[str], y: int) -> Iterator[str]:
    x = 12.0
    for part, label in enumerate(labels):
        yield from bars({part: [bar(x, y - 10, 12, 12)]})
        yield text(x + 17, y, label)
        x += 40 + 7 * len(label)


def panel(rows: list[Row], scenario: str, x: int, y: int) -> Iterator[str]:
    """One kind of work: a bar for each point, of its steps one over the other, to a scale of its own."""
    points = list(dict.fromkeys(it["written"] for it in rows))
    spent = {at: [next((int(it["ns"]) for it in rows if (it["written"], it["step"]) == (at, step)), 0) for step in STAGES] for at in points}
    most, room, floor = max(sum(it) for it in spent.values()), HEIGHT - 56, y + HEIGHT - 22
    drawn: dict[int, list[str]] = {part: [] for part in range(len(STAGES))}
    yield text(x, y + 12, scenario.replace("_", " "))
    for place, at in enumerate(points):
        left, top = x + place * 54, float(floor)
        for part, ns in enumerate(spent[at]):
            height = room * ns / most
            top -= height
            if ns:
                drawn[part].append(bar(left, top, 40, height))
        yield text(left + 20, top - 3, f"{sum(spent[at]):,}", "under")
        yield text(left + 20, floor + 13, f"{int(at):,}", "under")
    yield from bars(drawn)
    yield f'<line x1="{x}" y1="{floor}" x2="{x + 54 * len(points) - 14}" y2="{floor}"/>'


def growth(rows: list[Row]) -> str:
    """What a sample takes in all, by how many were written, for each kind of work."""
    steps = [it for it in rows if it["step"] in STAGES]
    scenarios = list(dict.fromkeys(it["scenario"] for it in steps))
    parts = [*legend(list(STAGES.values()), 20)]
    for number, scenario in enumerate(scenarios):
        x, y = 12 + number % COLUMNS * PANEL, 34 + number // COLUMNS * HEIGHT
        parts += panel([it for it in steps if it["scenario"] == scenario], scenario, x, y)
    height = 40 + HEIGHT * ((len(scenarios) + COLUMNS - 1) // COLUMNS)
    return drawing("Nanoseconds of processor time a sample, by how many were written", 12 + COLUMNS * PANEL, height, parts)


def turns(rows: list[Row]) -> str:
    """A turn of each work, beside that of other products."""
    products = [it for it in NAMES if any(row.get(it, "not_there") != "not_there" for row in rows)]
    most = max(int(row[it]) for row in rows for it in products if row.get(it, "not_there") != "not_there")
    parts, y = [*legend([NAMES[it] for it in products], 20)], 40
    drawn: dict[int, list[str]] = {part: [] for part in range(len(products))}
    for row in rows:
        history = row["history"].upper().replace("_1", " 1")
        parts.append(text(12, y + 14, f"{int(row['octets']):,} octets, {int(row['keys']):,} key{'s' * (row['keys'] != '1')}, {history}"))
        for part, product in enumerate(products):
            if row.get(product, "not_there") != "not_there":
                ns = int(row[product])
                drawn[part].append(bar(250, y, BARS * ns / most, SCALE - 4))
                parts.append(text(256 + BARS * ns / most, y + 11, f"{ns:,}", "quiet"))
            y += SCALE
        y += 8
    parts += bars(drawn)
    return drawing("Nanoseconds of processor time of a turn: a sample that is written, delivered and taken", 330 + BARS, y + 4, parts)


# The chart of each kind of line, and the file that it goes to.
CHARTS = {"growth": ("growth.svg", growth), "turn": ("turns.svg", turns)}
