"""The frontier as a chart: steps across, rounds for each chunk up."""
from __future__ import annotations

from collections.abc import Iterator
from typing import Tuple

from .cuts import Floor
from .svg import element, line, many, picture, short, text, title

# Steps, rounds and chunks.
Candidate = Tuple[int, int, int]
WIDTH, HEIGHT, LEFT, RIGHT, TOP, BOTTOM = 600, 340, 56, 24, 24, 46
RADIUS, APART = 6, 15
# The width of a letter, at most: in a narrow window letters are larger.
LETTER = 10
STEPS_OF_SCALE = 0.1, 0.2, 0.5, 1, 2, 5, 10, 20
MEANING = {
    "optimal": "optimal point", "open": "open point", "joined": "joined point", "cut": "cut: below the floor",
    "carried": "carried: refuted before the fault", "refuted": "refuted: no schedule", "unknown": "unknown: given up",
    "published": "published point",
}
# How many letters the words of a floor may have, and how long the sign behind them is.
MOST_LETTERS, SIGN = 48, 30
POINTS, WITH_A_LINE = ("optimal", "open", "joined"), ("optimal", "open")


class Chart:
    def __init__(self, candidates: list[tuple[str, Candidate]], steps: int, floor: Floor | None, said: str) -> None:
        """Candidates are pairs of a kind and of numbers of steps, rounds and chunks."""
        self.candidates, self.steps, self.floor, self.said = candidates, steps, floor, said
        ratios = [rounds / chunks for _, (_, rounds, chunks) in candidates] + [floor[0] / floor[1] if floor and floor[1] else 0]
        self.most = max([1, *ratios]) * 1.08

    def x(self, steps: int) -> float:
        return LEFT + (steps - 0.5) * (WIDTH - LEFT - RIGHT) / self.steps

    def y(self, ratio: float) -> float:
        return HEIGHT - BOTTOM - ratio / self.most * (HEIGHT - TOP - BOTTOM)

    def drawn(self) -> str:
        return picture(WIDTH, HEIGHT, self.said, *self.axes(), *self.bound(), self.stairs(), *self.marks(), class_="chart")

    def axes(self) -> Iterator[str]:
        bottom, right = HEIGHT - BOTTOM, WIDTH - RIGHT
        for it in range(1, self.steps + 1):
            yield text(self.x(it), bottom + 18, str(it))
        yield text((LEFT + right) / 2, HEIGHT - 8, "steps")
        each = next((it for it in STEPS_OF_SCALE if self.most / it <= 7), 50)
        for place in range(int(self.most / each) + 1):
            yield line(LEFT, self.y(place * each), right, self.y(place * each), class_="grid")
            yield text(LEFT - 8, self.y(place * each) + 4, f"{place * each:g}", "end")
        yield line(LEFT, bottom, right, bottom, class_="axis")
        yield line(LEFT, TOP, LEFT, bottom, class_="axis")
        yield element("text", "rounds for each chunk", x="14", y=short((TOP + bottom) / 2), text_anchor="middle",
                      transform=f"rotate(-90 14 {short((TOP + bottom) / 2)})")

    def bound(self) -> Iterator[str]:
        """The line below which no schedule is; without a line, that there is none at all. The words stand above the chart, where no
        mark is."""
        if not self.floor:
            return
        rounds, chunks, names = self.floor
        said, right = f"floor {rounds}/{chunks}" if chunks else "no schedule in any number of rounds", WIDTH - RIGHT
        if chunks:
            at = self.y(rounds / chunks)
            yield line(LEFT, at, right, at, class_="floor")
            yield line(right - SIGN, TOP - 14, right, TOP - 14, class_="floor-sign")
        yield text(right - SIGN - 6 if chunks else right, TOP - 10, with_names(said, names), "end", class_="small")

    def stairs(self) -> str:
        """The line along the points."""
        points = [(steps, rounds / chunks) for kind, (steps, rounds, chunks) in self.candidates if kind in WITH_A_LINE]
        if not points:
            return ""
        places = [f"M{short(self.x(points[0][0]))} {short(self.y(points[0][1]))}"]
        places += [f"H{short(self.x(steps))}V{short(self.y(ratio))}" for steps, ratio in points[1:]]
        return element("path", d="".join(places), class_="stairs")

    def marks(self) -> Iterator[str]:
        """The marks; those of several kinds at one place stand side by side, and one that is published frames the first."""
        places: dict[tuple[int, float], dict[str, list[str]]] = {}
        for kind, candidate in self.candidates:
            steps, rounds, chunks = candidate
            places.setdefault((steps, rounds / chunks), {}).setdefault(kind, []).append("-".join(map(str, candidate)))
        for (steps, ratio), kinds in places.items():
            kinds = {**{kind: its for kind, its in kinds.items() if kind != "published"}, **kinds}
            for place, (kind, names) in enumerate(kinds.items()):
                x, y = self.x(steps) + (APART * place if kind != "published" else 0), self.y(ratio)
                yield element("g", title(f"{MEANING[kind]}: {', '.join(names)}"), mark(kind, x, y), class_=f"mark {kind}")
                if kind in POINTS:
                    yield named(x, y, ", ".join(names))


def with_names(said: str, names: list[str]) -> str:
    """The words with the nodes of which they are told, or with their number if the names are long."""
    whole = f"{said}, by {' '.join(names)}" if names else said
    return whole if len(whole) <= MOST_LETTERS else f"{said}, by {many(len(names), 'node')}"


def named(x: float, y: float, said: str) -> str:
    """The name of a point, at its right or, if that has no room for it, at its left."""
    is_right = x + 10 + LETTER * len(said) <= WIDTH
    return text(x + 10 if is_right else x - 10, y - 9, said, "start" if is_right else "end", class_="named")


def mark(kind: str, x: float, y: float) -> str:
    """Each kind has a shape of its own."""
    if kind == "refuted":
        near, far = x - RADIUS + 1, x + RADIUS - 1
        return line(near, y - RADIUS + 1, far, y + RADIUS - 1) + line(near, y + RADIUS - 1, far, y - RADIUS + 1)
    if kind == "unknown":
        return text(x, y + 5, "?")
    if kind == "cut":
        return element("path", d=f"M{short(x - 5)} {short(y - 4)}h10l-5 9z")
    if kind == "published":
        return element("path", d=f"M{short(x)} {short(y - 9)}l9 9l-9 9l-9 -9z")
    if kind == "carried":
        return line(x - RADIUS, y, x + RADIUS, y)
    if kind == "joined":
        return element("rect", x=short(x - 5), y=short(y - 5), width="10", height="10")
    return element("circle", cx=short(x), cy=short(y), r=RADIUS)


def legend(kinds: set[str]) -> str:
    """The marks of these kinds, with what they mean."""
    return element("p", *(
        element("span", picture(22, 22, MEANING[it], element("g", mark(it, 11, 11), class_=f"mark {it}"), class_="sign"), " ", MEANING[it])
        for it in MEANING if it in kinds
    ), class_="legend")
