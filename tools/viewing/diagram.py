"""A schedule in time: nodes as rows, steps as columns, sends as arrows; and who has what after each step."""
from __future__ import annotations

from collections.abc import Iterator

from .layout import Place
from .runs import Run
from .svg import element, line, many, picture, short, text, title

ROW, TOP, BETWEEN = 44, 44, 16
# The width of a step, for each round and for each arrow.
ROUND, ARROW, NARROWEST, WIDEST = 110, 9, 200, 440
LETTER, LABEL_HEIGHT, MOST_LETTERS = 8.3, 14, 14
# Where along its arrow a label may stand, from the sender on.
PLACES = [it / 40 for it in range(7, 36)]
CELL, GAP = 11, 2


def drawn(run: Run, said: str) -> str:
    """The arrows of one step go from its left to its right; those between two nodes are one arrow, with all their chunks."""
    left = left_of(run)
    columns: list[tuple[float, float]] = []
    x = left
    for step in run.steps:
        columns.append((x, width_of(run, step)))
        x += columns[-1][1] + BETWEEN
    height, rows = height_of(run), rows_of(run)
    inner = names_of(run)
    for step, (start, width) in zip(run.steps, columns):
        inner.append(column(run, step, start, width, rows, height))
    return picture(x, height + 4, said, *inner, class_="time")


def names(run: Run) -> str:
    """The names of the nodes once more, which stay in view when the diagram is scrolled."""
    left, height = short(left_of(run)), short(height_of(run) + 4)
    return element("svg", *names_of(run), viewBox=f"0 0 {left} {height}", width=left, height=height, class_="names", aria_hidden="true",
                   style=f"margin-right: -{left}px")


def names_of(run: Run) -> list[str]:
    return [text(left_of(run) - 8, y + 4, it, "end", class_="name") for it, y in rows_of(run).items()]


def rows_of(run: Run) -> dict[str, float]:
    """How high the row of each node is."""
    return {it: TOP + ROW * (place + 0.5) for place, it in enumerate(run.nodes)}


def height_of(run: Run) -> float:
    return TOP + ROW * len(run.nodes)


def left_of(run: Run) -> float:
    return 16 + LETTER * max(map(len, run.nodes))


def width(run: Run) -> float:
    return left_of(run) + sum(width_of(run, step) + BETWEEN for step in run.steps)


def width_of(run: Run, step: int) -> float:
    arrows = len({(it[1], it[2]) for it in run.sends[step]})
    return max(NARROWEST, min(WIDEST, max(ROUND * run.point["rounds"][step - 1], ARROW * arrows)))


def column(run: Run, step: int, start: float, width: float, rows: dict[str, float], height: float) -> str:
    rounds = run.point["rounds"][step - 1]
    inner = [element("rect", x=short(start), y=short(TOP - 6), width=short(width), height=short(height - TOP + 8), class_="step")]
    inner += [line(start + width * it / rounds, TOP - 6, start + width * it / rounds, height + 2, class_="round") for it in range(1, rounds)]
    inner += [line(start, y, start + width, y, class_="row") for y in rows.values()]
    inner += [text(start + width / 2, 18, f"step {step}"), text(start + width / 2, 32, many(rounds, "round"), class_="small")]
    arrows, labels = arrows_of(run, step, start + 7, start + width - 7, rows)
    return element("g", *inner, *arrows, *labels, class_="column", data_column=step)


def arrows_of(run: Run, step: int, start: float, end: float, rows: dict[str, float]) -> tuple[list[str], list[str]]:
    """The arrows, and the chunks beside them: the longest labels find their place first."""
    chunks: dict[tuple[str, str], list[int]] = {}
    for chunk, sender, receiver, _ in run.sends[step]:
        chunks.setdefault((sender, receiver), []).append(chunk)
    arrows: list[str] = []
    labels: list[str] = []
    taken: list[tuple[float, float, float]] = []
    for (sender, receiver), found in sorted(chunks.items(), key=lambda it: -len(it[1])):
        named = " ".join(map(str, found))
        said = f"step {step}: {sender} sends {named} to {receiver}"
        arrows.append(element("g", title(said), line(start, rows[sender], end, rows[receiver], marker_end="url(#head)"), class_="send",
                              data_send=f"{step} {sender} {receiver} {named}"))
        beside = ",".join(map(str, found)) if len(named) <= MOST_LETTERS else many(len(found), "chunk")
        place = free_place((start, rows[sender]), (end, rows[receiver]), LETTER * len(beside) + 4, taken)
        taken.append((*place, LETTER * len(beside) + 4))
        labels.append(text(place[0], place[1] + 4, beside, class_="halo", data_send=f"{step} {sender} {receiver} {named}"))
    return arrows, labels


def free_place(start: Place, end: Place, width: float, taken: list[tuple[float, float, float]]) -> Place:
    """The first place along an arrow where a label of this width hides no other; else the first."""
    places = [(start[0] + (end[0] - start[0]) * it, start[1] + (end[1] - start[1]) * it) for it in PLACES]
    hides = lambda x, y: any(abs(x - other_x) < (width + wide) / 2 and abs(y - other_y) < LABEL_HEIGHT for other_x, other_y, wide in taken)
    return next((it for it in places if not hides(*it)), places[0])


def holdings(run: Run, step: int) -> str:
    """Who has what after a step: a row for each node, a square for each chunk."""
    left = 16 + LETTER * max(map(len, run.nodes))
    width, height = left + (CELL + GAP) * len(run.chunks) + 8, 18 + (CELL + GAP + 3) * len(run.nodes)
    inner = [text(left + (CELL + GAP) * it + CELL / 2, 11, str(it), class_="small") for it in run.chunks if it % 5 == 0]
    for place, node in enumerate(run.nodes):
        y = 18 + (CELL + GAP + 3) * place
        inner.append(text(left - 8, y + CELL - 1, node, "end", class_="name"))
        for kind, chunks in kinds_of(run, step, node).items():
            inner.append(element("path", d="".join(square(kind, left + (CELL + GAP) * it, y) for it in chunks), class_=kind))
    return picture(width, height, f"Who has what after step {step}.", *inner, class_="holdings")


def kinds_of(run: Run, step: int, node: str) -> dict[str, list[int]]:
    """The chunks of a node by how they are drawn."""
    found: dict[str, list[int]] = {"due": [], "kept": [], "come": [], "part": []}
    for it in run.chunks:
        if (it, node) in run.demand:
            found["due"].append(it)
        if any(run.stores[step][it, node]):
            is_new = step > 0 and run.stores[step][it, node] != run.stores[step - 1][it, node]
            found["part" if not run.is_whole(step, it, node) else "come" if is_new else "kept"].append(it)
    return {kind: chunks for kind, chunks in found.items() if chunks}


def square(kind: str, x: float, y: float) -> str:
    """The square of a chunk: one that is due is framed, one that came in this step has a notch, a sum in part is a triangle."""
    if kind == "due":
        return f"M{short(x - 1)} {short(y - 1)}h{CELL + 2}v{CELL + 2}h-{CELL + 2}z"
    if kind == "part":
        return f"M{short(x)} {short(y + CELL)}h{CELL}L{short(x)} {short(y)}z"
    if kind == "come":
        return f"M{short(x)} {short(y)}h{CELL}v{CELL}h-{CELL}zM{short(x + 4)} {short(y + 4)}v3h3v-3z"
    return f"M{short(x)} {short(y)}h{CELL}v{CELL}h-{CELL}z"


def loads(run: Run) -> Iterator[list[str]]:
    """For each group a row: its load in each step against what its width allows, as a bar and in words."""
    for number, group in enumerate(run.groups):
        yield [str(number), *(load(*run.load(step, group)) for step in run.steps)]


def load(count: int, allowed: int) -> str:
    long = 60 * min(count, allowed) / allowed
    bar = [element("rect", x="0.5", y="0.5", width="60", height="9", class_="room")]
    bar.append(element("rect", x="0.5", y="0.5", width=short(long), height="9", class_="load") if count else "")
    if count > allowed:
        bar.append(element("path", d="M64 1v8M67 1v8M70 1v8", class_="too-many"))
    said = f"{count} of {allowed}"
    return picture(74, 10, said, *bar, class_="bar") + f" {said}" + (", too many" if count > allowed else "")
