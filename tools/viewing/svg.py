"""Elements of a picture and of a page."""
from __future__ import annotations

from collections.abc import Iterable
from html import escape

VOID = "input", "meta"


def element(name: str, /, *inner: str, **attributes: object) -> str:
    """An element; in names of attributes `_` stands for `-`, and `class_` for `class`. What is in it is markup already."""
    said = "".join(f' {key.rstrip("_").replace("_", "-")}="{escape(str(it))}"' for key, it in attributes.items() if it is not None)
    return f"<{name}{said}>" if name in VOID else f"<{name}{said}>{''.join(inner)}</{name}>"


def text(x: float, y: float, said: str, anchor: str = "middle", **attributes: object) -> str:
    return element("text", escape(said), x=short(x), y=short(y), text_anchor=anchor, **attributes)


def line(x: float, y: float, to_x: float, to_y: float, **attributes: object) -> str:
    return element("line", x1=short(x), y1=short(y), x2=short(to_x), y2=short(to_y), **attributes)


def title(said: str) -> str:
    return element("title", escape(said))


def picture(width: float, height: float, said: str, *inner: str, left: float = 0, top: float = 0, **attributes: object) -> str:
    """A picture of its own size, which is named in words."""
    return element("svg", title(said), *inner, viewBox=f"{short(left)} {short(top)} {short(width)} {short(height)}", width=short(width), height=short(height),
                   role="img", aria_label=said, **attributes)


def short(number: float) -> str:
    return f"{number:.1f}".rstrip("0").rstrip(".")


def table(head: Iterable[str], rows: Iterable[Iterable[str]], **attributes: object) -> str:
    """A table; cells are markup already, and the first of each row is its head."""
    top = element("tr", *(element("th", escape(it), scope="col") for it in head))
    body = (element("tr", element("th", first, scope="row"), *(element("td", it) for it in rest)) for first, *rest in rows)
    return element("table", element("thead", top), element("tbody", *body), **attributes)


def many(count: int, one: str, more: str | None = None) -> str:
    """A count with its word, as `1 step` or `2 steps`."""
    return f"{count} {one if count == 1 else more or one + 's'}"
