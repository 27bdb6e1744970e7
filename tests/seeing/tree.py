"""A page as a tree of elements."""
from __future__ import annotations

from collections.abc import Iterable, Iterator
from html.parser import HTMLParser

VOID = "meta", "input"


class Node:
    def __init__(self, name: str, attributes: Iterable[tuple[str, str | None]], above: Node | None) -> None:
        self.name, self.above = name, above
        self.attributes = {key: value or "" for key, value in attributes}
        self.inner: list[Node | str] = []

    def all(self, name: str | None = None, **attributes: str) -> Iterator[Node]:
        """The elements below of that name, with these attributes."""
        wanted = {key.rstrip("_").replace("_", "-"): it for key, it in attributes.items()}
        for it in self.inner:
            if isinstance(it, Node):
                if name in (None, it.name) and all(it.attributes.get(key) == value for key, value in wanted.items()):
                    yield it
                yield from it.all(name, **attributes)

    def one(self, name: str, **attributes: str) -> Node:
        (found,) = self.all(name, **attributes)
        return found

    def title(self) -> str:
        """What its title says."""
        found = self.one("title").inner[0]
        assert isinstance(found, str)
        return found

    def text(self) -> str:
        """What is read of it: not the titles of pictures, which say the same again."""
        return "".join(it if isinstance(it, str) else it.text() for it in self.inner if isinstance(it, str) or it.name not in ("title", "svg"))

    def rows(self) -> list[list[str]]:
        return [[(it if isinstance(it, str) else it.text()).strip() for it in row.inner] for row in self.one("tbody").all("tr")]


class Page(HTMLParser):
    """A page as a tree; elements have to be closed in their order."""

    def __init__(self, text: str) -> None:
        super().__init__()
        self.root = self.at = Node("page", (), None)
        self.feed(text)
        self.close()
        assert self.at is self.root, self.at.name

    def handle_starttag(self, tag: str, attrs: list[tuple[str, str | None]]) -> None:
        made = Node(tag, attrs, self.at)
        self.at.inner.append(made)
        self.at = self.at if tag in VOID else made

    def handle_endtag(self, tag: str) -> None:
        assert tag == self.at.name and self.at.above, (tag, self.at.name)
        self.at = self.at.above

    def handle_data(self, data: str) -> None:
        self.at.inner.append(data)
