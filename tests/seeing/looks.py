"""Looks at pages in a headless browser: in light, in dark, in a narrow window and in print, by what it has computed of each."""
from __future__ import annotations

from collections.abc import Iterable
from typing import Any

from tried import Count

from .colours import LEAST, contrast
from .devtools import Browser

# How a page is looked at: the width of the window, dark or not, and print or not. That of print is a page of A4 within its margins.
FORMS = {"light": (1440, False, False), "dark": (1440, True, False), "400 wide": (400, False, False), "print": (718, False, True)}
# What a page of A4 has within its margins, in pixels of 1/96 inch: upright, and lying.
UPRIGHT, LYING = (718, 1046), (1046, 718)
# The least size of a letter in pixels on a screen, and in print. The least contrast of what is no text.
LEAST_LETTER, LEAST_PRINTED, LEAST_OF_SHAPES = 9, 6, 3
SHAPES = ".node, .hub, .link path, .port path, .send line, .axis, .floor, .stairs, .mark line, .mark circle, .mark rect, .mark path, .curve, .border, .chosen, .load, .room, .due, .kept"
# What is measured. The box of a text is that of its letters: what a line leaves above and below them is no part of it.
MEASURE = """(() => {
  const shown = it => it.getClientRects().length > 0 && !it.closest("[aria-hidden], marker, defs");
  const name = it => `${it.textContent.trim().slice(0, 24)} (${it.closest("svg, table, p, section, h1, h2").className.baseVal || it.closest("svg, table, p, section, h1, h2").className})`;
  const box = it => { const { left, right, top, bottom } = it.getBoundingClientRect(), high = (bottom - top) * 0.22; return [left + 0.5, right - 0.5, top + high, bottom - high]; };
  const hides = (one, other) => one[0] < other[1] && other[0] < one[1] && one[2] < other[3] && other[2] < one[3];
  const style = it => getComputedStyle(it);
  const ground = it => { for (; it; it = it.parentElement) if (!/, 0\\)$|transparent/.test(style(it).backgroundColor)) return style(it).backgroundColor; return "rgb(255, 255, 255)"; };
  const scale = it => Math.hypot(it.getScreenCTM().a, it.getScreenCTM().b);
  const lines = it => { const all = document.createRange(); all.selectNodeContents(it); return new Set([...all.getClientRects()].map(it => Math.round(it.top))).size; };
  const seen = { wide: document.documentElement.scrollWidth, hidden: [], cut: [], small: [], texts: [], shapes: [], marks: [], over: [], tall: [], broken: [], scrolled: [], thin: [], kinds: {} };
  for (const svg of [...document.querySelectorAll("svg")].filter(shown)) {
    const texts = [...svg.querySelectorAll("text")].filter(it => it.getBoundingClientRect().width > 0).map(it => [it, box(it)]), frame = svg.getBoundingClientRect();
    texts.forEach(([one, its], place) => { for (const [other, box] of texts.slice(0, place)) if (hides(its, box)) seen.hidden.push(`${name(one)}, ${name(other)}`); });
    for (const [it, [left, right, top, bottom]] of texts) if (left < frame.left - 1 || right > frame.right + 1 || top < frame.top - 1 || bottom > frame.bottom + 1) seen.cut.push(name(it));
    for (const mark of svg.querySelectorAll(".mark")) {
      const its = mark.getBoundingClientRect(), kind = mark.getAttribute("class").split(" ")[1], shape = style(mark.querySelector("circle, rect, path, line, text"));
      if (its.left < frame.left || its.right > frame.right || its.top < frame.top || its.bottom > frame.bottom) seen.cut.push(`${kind} (${svg.closest("figure, p").className})`);
      if (!svg.closest(".legend")) seen.kinds[kind] = [[...mark.children].filter(it => it.tagName !== "title").map(it => it.tagName + (it.getAttribute("d") || "").replace(/[-0-9.]+/g, "")), shape.fill === "none" ? shape.stroke : shape.fill].join(" ");
      for (const [it, box] of texts) if (!mark.contains(it) && hides([its.left + 2, its.right - 2, its.top + 2, its.bottom - 2], box)) seen.marks.push(name(it));
    }
    for (const path of svg.querySelectorAll(".curve.fastest")) {
      for (let part = 0; part <= 200; part++) {
        const at = path.getPointAtLength(path.getTotalLength() * part / 200), all = svg.getScreenCTM(), x = at.x * all.a + all.e, y = at.y * all.d + all.f;
        for (const [it, box] of texts) if (hides([x - 1, x + 1, y - 1, y + 1], box)) seen.over.push(name(it));
      }
    }
    for (const one of svg.querySelectorAll(".chosen, .border")) {
      const { left, right, top, bottom } = one.getBoundingClientRect();
      for (const [it, box] of texts) if (hides([left - 1, right + 1, top, bottom], box) && it.compareDocumentPosition(one) & 4) seen.over.push(name(it));
    }
    for (const [it] of texts) if (it.classList.contains("halo") && parseFloat(style(it).strokeWidth) < 7) seen.thin.push(name(it));
    for (const [it] of texts) seen.small.push([name(it), parseFloat(style(it).fontSize) * scale(it), it.closest("[data-wide]") !== null]);
    seen.tall.push([name(svg.querySelector("title").parentElement), frame.width, frame.height, svg.classList.contains("time") && svg.closest("[data-wide]") !== null, svg.classList.contains("time")]);
  }
  for (const it of document.querySelectorAll("svg text")) {
    if (!shown(it)) continue;
    const its = style(it), step = it.closest(".column.now"), halo = it.classList.contains("halo");
    const hub = it.previousElementSibling && it.previousElementSibling.matches(".hub") ? style(it.previousElementSibling).fill : null;
    const under = hub || (step && [style(step.querySelector(".step")).fill].find(it => it !== "none")) || ground(it.closest("svg"));
    seen.texts.push([name(it), its.fill, under]);
    if (halo) seen.texts.push([`the halo of ${name(it)}`, its.fill, its.stroke], [`= ${name(it)}`, its.stroke, under]);
  }
  for (const it of document.querySelectorAll("h1, h2, h3, p, summary, th, td, li, figcaption, a, label, input, select, code")) {
    if (shown(it) && it.getBoundingClientRect().width > 0) { seen.texts.push([name(it), style(it).color, ground(it)]); seen.small.push([name(it), parseFloat(style(it).fontSize), false]); }
  }
  for (const it of document.querySelectorAll("SHAPES")) {
    const its = style(it);
    if (shown(it)) seen.shapes.push([it.getAttribute("class") || it.parentElement.getAttribute("class"), its.stroke === "none" || it.matches(".load, .kept") ? its.fill : its.stroke, ground(it.closest("svg"))]);
  }
  for (const it of document.querySelectorAll("figure, details, .state")) if (it.scrollWidth > it.clientWidth + 1 && style(it).overflowX !== "auto") seen.scrolled.push(it.className || it.tagName);
  for (const it of document.querySelectorAll("table")) {
    const of = it.parentElement;
    if (shown(it) && it.scrollWidth > of.clientWidth + 1 && style(of).overflowX !== "auto") seen.scrolled.push(it.className);
  }
  for (const it of document.querySelectorAll(".unbroken, .candidates th[scope=row]")) if (lines(it) > 1) seen.broken.push(name(it));
  seen.lines = Math.max(0, ...[...document.querySelectorAll(".candidates td:last-child")].filter(shown).map(lines));
  const all = (what, of) => [...new Set([...document.querySelectorAll(what)].map(it => of(style(it))))];
  seen.looks = { grey: all(".grey", it => it.opacity), now: all(".column.now .step", it => it.fill), step: all(".column:not(.now) .step", it => it.fill),
    dashed: all(".link.shared path", it => it.strokeDasharray), solid: all(".link:not(.shared) path", it => it.strokeDasharray),
    fastest: all(".curve.fastest", it => it.strokeWidth + it.stroke), curve: all(".curve:not(.fastest)", it => it.strokeWidth + it.stroke) };
  const avoids = (what, key) => [...document.querySelectorAll(what)].every(it => style(it)[key].startsWith("avoid"));
  seen.whole = [avoids("figure, svg, tr, .legend, .chooser, .in-time", "breakInside"), avoids("h1, h2, h3, summary", "breakAfter")];
  seen.paper = [...document.querySelectorAll(".in-time")].map(it => style(it).page);
  seen.least = all("svg.topology", it => it.minWidth);
  seen.asked = [...document.querySelectorAll(".asked")].every(shown);
  seen.sliders = [...document.querySelectorAll(".slider, .keys")].filter(it => it.getClientRects().length > 0).length;
  return seen;
})()""".replace("SHAPES", SHAPES)
# Each slider at its first step, so that a step is marked; and of each point the first step is followed.
SLIDE = """for (const it of document.querySelectorAll("input[type=range]")) { it.value = 1; it.dispatchEvent(new Event("input")); }
for (const it of document.querySelectorAll(".slider select")) { it.value = "step 1"; it.dispatchEvent(new Event("change")); }"""
EVERYTHING = """for (const it of document.querySelectorAll("details")) it.open = true;"""


def look_at(pages: Iterable[tuple[str, str]], count: Count) -> None:
    """Each of the pages, by its name, in each form."""
    kinds: dict[str, dict[str, str]] = {}
    with Browser() as browser:
        tab = browser.tab()
        for name, text in pages:
            for form, (width, is_dark, is_print) in FORMS.items():
                tab.looks(width, is_dark, is_print)
                tab.opens(text)
                tab.value(SLIDE + (EVERYTHING if is_print else ""))
                seen = tab.value(MEASURE)
                check_look(f"{name}, {form}", seen, width, is_dark, is_print, count)
                kinds.setdefault(form, {}).update(seen["kinds"])
    for form, its in kinds.items():
        count.equal(f"{form}: each kind of a mark looks otherwise", sorted(kind for kind, look in its.items() if list(its.values()).count(look) > 1), [])


def check_look(name: str, seen: dict[str, Any], width: int, is_dark: bool, is_print: bool, count: Count) -> None:
    count.equal(f"{name}: no wider than the window", seen["wide"] <= width, True)
    for key, what in (("hidden", "a text hides no other"), ("cut", "no text is cut"), ("marks", "no text stands on a mark"), ("over", "no name stands on a curve"),
                      ("broken", "no candidate is broken"), ("thin", "halos are as wide as what is between letters"), ("scrolled", "what is too wide is scrolled")):
        count.equal(f"{name}: {what}", seen[key][:3], [])
    least = LEAST_PRINTED if is_print else LEAST_LETTER
    small = [(it, size) for it, size, is_wide in seen["small"] if size * (LYING[0] / UPRIGHT[0] if is_print and is_wide else 1) < least]
    count.equal(f"{name}: letters that are too small", small[:3], [])
    faint = [(it, text, under) for it, text, under in seen["texts"] if not it.startswith("= ") and ratio(text, under) < LEAST]
    count.equal(f"{name}: text that is too faint", faint[:3], [])
    count.equal(f"{name}: halos have the colour of the ground", [it for it in seen["texts"] if it[0].startswith("= ") and it[1] != it[2]][:3], [])
    count.equal(f"{name}: shapes that are too faint", [it for it in seen["shapes"] if ratio(*it[1:]) < LEAST_OF_SHAPES][:3], [])
    paper = "#fff" if not is_dark else None
    count.equal(f"{name}: the ground", {light_of(under) > 0.8 for it, _, under in seen["texts"]} == {paper is not None}, True)
    count.equal(f"{name}: what is said of a candidate has three lines at most", seen["lines"] <= 3, True)
    its = seen["looks"]
    apart = [set(its[one]).isdisjoint(its[other]) for one, other in (("now", "step"), ("dashed", "solid"), ("fastest", "curve")) if not (is_print and one == "now")]
    count.equal(f"{name}: the step that is shown, shared links and what is fastest look otherwise", apart, [True] * len(apart))
    count.equal(f"{name}: what is not followed is grey, but in print", [(float(it) < 0.3) for it in its["grey"]], [not is_print] * len(its["grey"]))
    if is_print:
        check_print(name, seen, count)


def check_print(name: str, seen: dict[str, Any], count: Count) -> None:
    room = lambda is_wide: LYING if is_wide else UPRIGHT
    tall = [it for it in seen["tall"] if it[1] > UPRIGHT[0] + 1 or it[2] > room(it[3])[1]]
    count.equal(f"{name}: each figure is on one page", tall, [])
    count.equal(f"{name}: figures are not cut, headings stay with what they head", seen["whole"], [True, True])
    count.equal(f"{name}: the drawing of a topology may be as small as the page has it", seen["least"], ["0px"])
    wide = [it[3] for it in seen["tall"] if it[4]]
    count.equal(f"{name}: wide diagrams lie", seen["paper"], ["wide" if it else "auto" for it in wide])
    count.equal(f"{name}: what the model takes is printed, sliders are not", (seen["asked"], seen["sliders"]), (True, 0))


def ratio(one: str, other: str) -> float:
    return contrast(hex_of(one), hex_of(other))


def light_of(colour: str) -> float:
    red, green, blue = parts(colour)
    return (red + green + blue) / 765


def parts(colour: str) -> list[int]:
    """Of a colour as a browser computes it, as `rgb(1, 2, 3)`."""
    return [int(float(it)) for it in colour[colour.index("(") + 1:-1].split(",")[:3]]


def hex_of(colour: str) -> str:
    return "#" + "".join(f"{it:02x}" for it in parts(colour))
