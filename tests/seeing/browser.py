"""Drives a page in a headless browser: sliders, what is followed, the chooser, narrow windows and print."""
from __future__ import annotations

import json
import os
import subprocess
import tempfile
from typing import Any, Callable, Tuple

from oracle.collective import Candidate
from oracle.report import Point, Report
from tried import Count

from .tree import Page

# A point's number and its candidate; and the seconds that a candidate takes for so many bytes.
Numbered = Tuple[int, Candidate]
Time = Callable[[Candidate, float], float]
# Moves each slider to each step, follows each thing, asks the chooser, and leaves what is seen then as the title of the page.
MOVES = """<script>
const seen = { slid: [], followed: [], chosen: [], wide: document.documentElement.scrollWidth <= innerWidth, unnamed: 0, printed: 0 };
const click = it => it.dispatchEvent(new MouseEvent("click", { bubbles: true }));
const inked = point => [...point.querySelectorAll(".send:not(.grey)")].map(it => it.dataset.send);
for (const point of document.querySelectorAll(".point")) {
  const slider = point.querySelector("input[type=range]"), figure = point.querySelector("figure"), follow = point.querySelector("select");
  for (let step = 0; step <= Number(slider.max); step++) {
    slider.value = step;
    slider.dispatchEvent(new Event("input"));
    const visible = [...point.querySelectorAll(".state")].filter(it => it.offsetHeight > 0).map(it => it.dataset.step);
    const marked = [...point.querySelectorAll(".column.now")].map(it => it.dataset.column);
    const frame = figure.getBoundingClientRect();
    const inside = [...point.querySelectorAll(".column.now .step")].map(it => it.getBoundingClientRect()).every(it => it.left < frame.right - 20 && it.right > frame.left + 20);
    const names = point.querySelector(".names"), rows = [...names.querySelectorAll("text")].map(it => it.getBoundingClientRect()), over = [...point.querySelectorAll(".time .name")].map(it => it.getBoundingClientRect());
    const beside = rows.length === over.length && rows.every((it, place) => Math.abs(it.top - over[place].top) < 1 && it.left >= frame.left && it.right < frame.right && (figure.scrollLeft > 0 || Math.abs(it.left - over[place].left) < 1));
    seen.slid.push(`${point.id} ${step}: ${visible} ${marked}${inside ? "" : " out of view"}${beside ? "" : " without names"}`);
  }
  for (const it of [...follow.options].map(it => it.value)) {
    follow.value = it;
    follow.dispatchEvent(new Event("change", { bubbles: true }));
    seen.followed.push([point.id, it, inked(point)]);
  }
  follow.dispatchEvent(new KeyboardEvent("keydown", { key: "Escape", bubbles: true }));
  seen.followed.push([point.id, "", inked(point)]);
  const first = point.querySelector(".send"), name = point.querySelector(".time .name");
  if (first) {
    click(first.querySelector("line"));
    seen.followed.push([point.id, `chunk ${first.dataset.send.split(" ")[3]}`, inked(point)]);
    click(point.querySelector(".column .step"));
    seen.followed.push([point.id, "step 1", inked(point)]);
    click(name);
    seen.followed.push([point.id, `node ${name.textContent}`, inked(point)]);
    click(name);
    seen.followed.push([point.id, "", inked(point)]);
  }
}
const chooser = document.querySelector(".chooser");
for (const [alpha, bandwidth, size] of chooser ? ASKED : []) {
  for (const [name, value] of Object.entries({ alpha, bandwidth, size, unit: 1 })) chooser.querySelector(`[name=${name}]`).value = value;
  chooser.querySelector("input").dispatchEvent(new Event("input", { bubbles: true }));
  const fastest = [...chooser.querySelectorAll(".curve.fastest")].map(it => it.dataset.point);
  const ends = [...chooser.querySelectorAll(".curve:not(.fastest)")].map(it => [it.dataset.point, it.getAttribute("d").match(/[0-9.]+/g).map(Number).filter((_, place) => place < 2 || place >= 120)]);
  const axes = [...chooser.querySelectorAll("svg text:not(.named)")].map(it => [it.textContent, Number(it.getAttribute("x")), Number(it.getAttribute("y"))]);
  seen.chosen.push([chooser.querySelector(".fastest-is").textContent, [...chooser.querySelectorAll(".ranges tbody tr")].map(it => [...it.children].map(it => it.textContent)), fastest, ends, axes]);
}
for (const it of document.querySelectorAll("svg:not([aria-hidden]), input, select")) {
  if (!it.getAttribute("aria-label") && !it.closest("label")) seen.unnamed++;
}
dispatchEvent(new Event("beforeprint"));
seen.printed = document.querySelectorAll("details:not([open])").length;
dispatchEvent(new Event("afterprint"));
document.title = JSON.stringify(seen);
if (parent !== window) parent.postMessage(document.title, "*");
</script>"""
# A window of a browser is not as narrow as that of a telephone; a page in a page can be.
FRAME = """<!DOCTYPE html><html><head><title></title></head><body><iframe src="page.html" style="width: WIDTHpx; height: 800px; border: 0"></iframe>
<script>addEventListener("message", event => { document.title = event.data; });</script></body></html>"""
LEAST_WINDOW = 500
# Alpha in microseconds, bandwidth in GB/s, and bytes.
ASKED = (5, 25, 1048576), (0, 1, 1000), (100, 300, 4096), (0.5, 12.5, 1 << 30)


def opened(text: str, width: int = 1200) -> subprocess.CompletedProcess[str]:
    """The page as a browser has it when it was driven, and what it logs."""
    with tempfile.TemporaryDirectory() as folder:
        path = os.path.join(folder, "page.html")
        with open(path, "w") as it:
            it.write(text.replace("</body>", f"{MOVES.replace('ASKED', json.dumps(ASKED))}</body>"))
        if width < LEAST_WINDOW:
            path = os.path.join(folder, "frame.html")
            with open(path, "w") as it:
                it.write(FRAME.replace("WIDTH", str(width)))
        words = ["chromium", "--headless", "--no-sandbox", "--disable-gpu", f"--user-data-dir={folder}/profile", f"--window-size={width},900"]
        words += ["--enable-logging=stderr", "--dump-dom", f"file://{path}"]
        return subprocess.run(words, capture_output=True, text=True, timeout=120, env={**os.environ, "HOME": folder})


def check_in_browser(name: str, ran: subprocess.CompletedProcess[str], report: Report, count: Count) -> None:
    count.equal(f"{name}: errors in the browser", [it for it in ran.stderr.split("\n") if "CONSOLE" in it], [])
    titles = [it.text() for it in Page(ran.stdout).root.one("head").all("title")] if ran.stdout else []
    seen = json.loads(titles[0]) if titles and titles[0].startswith("{") else {}
    points = list(enumerate((it for _, it in report.points()), 1))
    wanted = [f"point-{number} {step}: {step} {step or ''}" for number, it in points for step in range(len(it.rounds) + 1)]
    count.equal(f"{name}: what the sliders show", seen.get("slid"), wanted)
    count.equal(f"{name}: no wider than the window, all named, all printed", [seen.get(it) for it in ("wide", "unnamed", "printed")], [True, 0, 0])
    check_followed(name, seen.get("followed", []), points, report.topology.names, count)
    joined = bool(report.joined)
    from_these = [(number, it.candidate) for number, it in points if not joined or it.mark == "joined"]
    check_chosen(name, seen.get("chosen", []), from_these, count)


def check_followed(name: str, followed: list[Any], points: list[tuple[int, Point]], names: list[str], count: Count) -> None:
    for point, what, inked in followed:
        kind, _, its = what.partition(" ")
        sends: dict[tuple[str, str, str], list[str]] = {}
        for step, chunk, a, b in points[int(point.split("-")[1]) - 1][1].sends:
            sends.setdefault((str(step), names[a], names[b]), []).append(str(chunk))
        kinds: dict[str, Callable[[tuple[str, str, str], list[str]], bool]] = {
            "": lambda *_: True, "node": lambda key, _: its in key[1:], "chunk": lambda _, chunks: its in chunks, "step": lambda key, _: its == key[0],
        }
        has = kinds[kind]
        wanted = sorted(" ".join([*key, *chunks]) for key, chunks in sends.items() if has(key, chunks))
        count.equal(f"{name}: {point} when {what or 'everything'} is followed", sorted(inked), wanted)
    count.equal(f"{name}: something was followed", bool(followed) or not points, True)


def check_chosen(name: str, chosen: list[Any], points: list[Numbered], count: Count) -> None:
    """The sentence, the ranges and the chart against the model, by trying each size."""
    count.equal(f"{name}: the chooser was asked", len(chosen), len(ASKED) if points else 0)
    for (alpha, bandwidth, size), (said, ranges, fastest, ends, axes) in zip(ASKED, chosen):
        time = lambda candidate, at: candidate[0] * alpha * 1e-6 + candidate[1] / candidate[2] * at / (bandwidth * 1e9)
        least = min(time(it, size) for _, it in points)
        best = [f"point {number}, {'-'.join(map(str, it))}," for number, it in points if time(it, size) <= least * (1 + 1e-9)]
        count.equal(f"{name}: {alpha}, {bandwidth}, {size}: the fastest", any(it in said for it in best) and said_time(least) in said, True)
        count.equal(f"{name}: the ranges follow each other", [*(it[2] for it in ranges), "any size"], ["0 B", *(it[3] for it in ranges)])
        named = [[f"point {number}", "-".join(map(str, it))] for number, it in fastest_of(points, time)]
        count.equal(f"{name}: the points of the ranges", [it[:2] for it in ranges], named)
        for _, candidate, start, to in ranges:
            low, high = bytes_of(start), bytes_of(to)
            middle = (max(low, 1) * high) ** 0.5
            its = time(candidate_of(candidate), middle)
            count.equal(f"{name}: {candidate} from {start} to {to}", its <= min(time(it, middle) for _, it in points) * 1.001, True)
        count.equal(f"{name}: what is fastest is drawn so", set(fastest) <= {it[1] for it in ranges}, True)
        check_curves(name, ends, axes, time, count)


def fastest_of(points: list[Numbered], time: Time) -> list[Numbered]:
    """The points that are fastest for some message size, from small sizes on: between two sizes at which curves cross one is."""
    lines = [(time(it, 0), time(it, 1 << 40) - time(it, 0)) for _, it in points]
    crossings = sorted({0.0, *((a - c) / (d - b) for a, b in lines for c, d in lines if (d - b) * (a - c) > 0)})
    sizes = [(one + other) / 2 for one, other in zip(crossings, [*crossings[1:], 2 * crossings[-1] + 1]) if other - one > 1e-12]
    found = [min(zip(lines, points), key=lambda it: it[0][0] + it[0][1] * size)[1] for size in sizes]
    return [it for place, it in enumerate(found) if place == 0 or it != found[place - 1]]


def check_curves(name: str, ends: list[Any], axes: list[Any], time: Time, count: Count) -> None:
    """The ends of each curve against the axes, both of which are logarithmic."""
    from math import log10, log2
    sizes = [(x, log2(bytes_of(said))) for said, x, y in axes if said.endswith("B")]
    times = [(y - 4, log10(seconds_of(said))) for said, x, y in axes if said.endswith("s") and said[0].isdigit()]
    words = [(said, y > max(it[2] for it in axes if it[0] != said)) for said, _, y in axes if not said[0].isdigit()]
    count.equal(f"{name}: what stands below the chart", words, [("message size", True)])
    line = lambda places: lambda it: places[0][1] + (it - places[0][0]) * (places[-1][1] - places[0][1]) / (places[-1][0] - places[0][0])
    at_size, at_time = line(sizes), line(times)
    count.equal(f"{name}: sizes go to the right, times go up", (sizes == sorted(sizes), [it for it, _ in times] == sorted((it for it, _ in times), reverse=True)), (True, True))
    for candidate, (x, y, to_x, to_y) in ends:
        numbers = candidate_of(candidate)
        off = [abs(at_time(up) - log10(time(numbers, 2 ** at_size(across)))) for across, up in ((x, y), (to_x, to_y))]
        count.equal(f"{name}: the ends of the curve of {candidate}", [it < 0.05 for it in off], [True, True])


def candidate_of(said: str) -> Candidate:
    steps, rounds, chunks = map(int, said.split("-"))
    return steps, rounds, chunks


def bytes_of(said: str) -> float:
    if said == "any size":
        return 2.0 ** 60
    number, unit = said.split(" ")
    return float(number) * 1024 ** ["B", "KiB", "MiB", "GiB", "TiB"].index(unit)


def seconds_of(said: str) -> float:
    number, unit = said.split(" ")
    return float(number) * {"s": 1, "ms": 1e-3, "µs": 1e-6}[unit]


def said_time(seconds: float) -> str:
    scale, unit = (1, "s") if seconds >= 0.9995 else (1e3, "ms") if seconds >= 0.9995e-3 else (1e6, "µs")
    return f"{float(f'{seconds * scale:.3g}'):g} {unit}."
