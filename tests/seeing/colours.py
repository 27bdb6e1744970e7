"""Holds the colours of a page to what can be read: text has at least 4.5 times the light of its ground, or its ground of it."""
from __future__ import annotations

import os
import re

from tried import Count

VIEWING = os.path.join(os.path.dirname(os.path.dirname(os.path.dirname(os.path.abspath(__file__)))), "tools", "viewing")
LEAST = 4.5
# What text is drawn over: the page, boxes of a topology, and the step that is shown. (What is not followed is grey on purpose.)
GROUNDS = "paper", "fill", "now"
OF_TEXT = re.compile(r"text|\.small|\.halo|\.name")
COLOUR, FILL, VARIABLE = re.compile(r"(?<![a-z-])color: var\(--([a-z]+)\)"), re.compile(r"(?<![a-z-])fill: var\(--([a-z]+)\)"), re.compile(r"--([a-z]+): (#[0-9a-f]+)")


def light_colours() -> set[str]:
    """The colours of the page as it is in the light."""
    return set(dict(VARIABLE.findall(next(body for selector, body in rules(read("page.css")) if selector == ":root"))).values())


def check_contrast(count: Count) -> None:
    page, figures = (read(it) for it in ("page.css", "figures.css"))
    texts = {it for _, body in rules(page) for it in COLOUR.findall(body)}
    texts |= {it for selector, body in rules(figures) if OF_TEXT.search(selector) for it in FILL.findall(body)}
    count.equal("the colours of text", {"ink", "soft", "strong"} <= texts, True)
    schemes = [dict(VARIABLE.findall(body)) for selector, body in rules(page) if selector == ":root"]
    count.equal("the schemes: light, dark, print", [len(it) for it in schemes], [len(schemes[0])] * 3)
    dark = [light(it["paper"]) < light(it["ink"]) for it in schemes]
    count.equal("the dark scheme", dark, [False, True, False])
    for place, scheme in enumerate(schemes):
        faint = [(text, ground) for text in sorted(texts) for ground in GROUNDS if contrast(scheme[text], scheme[ground]) < LEAST]
        count.equal(f"scheme {place}: text that is too faint", faint, [])


def read(name: str) -> str:
    with open(os.path.join(VIEWING, name)) as it:
        return it.read()


def rules(text: str) -> list[tuple[str, str]]:
    """Each selector with what stands in its braces; those within a condition too."""
    return [(selector.strip(), body) for selector, body in re.findall(r"([^{}]+)\{([^{}]*)\}", re.sub(r"@media[^{]*\{", "", text))]


def contrast(one: str, other: str) -> float:
    low, high = sorted((light(one), light(other)))
    return (high + 0.05) / (low + 0.05)


def light(colour: str) -> float:
    """The relative luminance of a colour, by the definition of WCAG 2."""
    digits = colour[1:] if len(colour) == 7 else "".join(2 * it for it in colour[1:])
    parts = [int(digits[place:place + 2], 16) / 255 for place in (0, 2, 4)]
    red, green, blue = (it / 12.92 if it <= 0.04045 else ((it + 0.055) / 1.055) ** 2.4 for it in parts)
    return 0.2126 * red + 0.7152 * green + 0.0722 * blue
