"""The topology as a drawing: nodes where the machine has them, links as arrows, and shared groups as things with ports."""
from collections import Counter
from html import escape
from typing import Any, Dict, List, Tuple

from .curves import HALF_HEIGHT, LETTER, SAMPLES, Box, at, bounds, curve_of, edge, free_box, label_place
from .hubs import Hub, hubs_of, ports
from .layout import APART, places_of
from .svg import element, many, picture, short, table, text, title

AROUND = 14
# How much smaller the drawing may get in a narrow window.
LEAST_SCALE = 0.7


def drawn(topology: dict) -> str:
    nodes, links = topology["nodes"], groups_of_links(topology)
    said = f"The topology: {many(len(nodes), 'node')}, {many(len(links), 'link')} in {many(len(topology['groups']), 'group')}."
    return Drawing(topology).picture(said)


class Drawing:
    """What is drawn so far: `taken` are the boxes that no label may hide."""

    def __init__(self, topology: dict) -> None:
        self.topology, self.links, self.hubs = topology, groups_of_links(topology), hubs_of(topology)
        through = {link for hub in self.hubs for link in hub.links}
        self.own = [it for it in self.links if it not in through]
        wide = max(2 * HALF_HEIGHT, LETTER * max(map(len, topology["nodes"])) + 14) / 2
        places, _, _ = places_of(topology, set(self.own), max(1, (2 * wide + 56) / APART))
        self.boxes: Dict[str, Box] = {node: (x, y, wide, HALF_HEIGHT) for node, (x, y) in places.items()}
        self.taken: List[Box] = list(self.boxes.values())
        self.lines: List[str] = []
        self.labels: List[str] = []
        self.places: List[Tuple[float, float]] = []

    def picture(self, said: str) -> str:
        for hub in self.hubs:
            self.add_hub(hub)
        for a, b in self.own:
            self.add_link(a, b)
        names = [element("g", element("rect", x=short(x - wide), y=short(y - high), width=short(2 * wide), height=short(2 * high), rx=high,
                                      class_="node"), text(x, y + 4, node, class_="name"), class_="machine", data_node=node)
                 for node, (x, y, wide, high) in self.boxes.items()]
        left, top, right, bottom = bounds([*self.taken, *((x, y, 0, 0) for x, y in self.places)])
        view = left - AROUND, top - AROUND, right - left + 2 * AROUND, bottom - top + 2 * AROUND
        return picture(view[2], view[3], said, *self.lines, *names, *self.labels, class_="topology", left=view[0], top=view[1],
                       style=f"min-width: {short(LEAST_SCALE * view[2])}px")

    def add_arrow(self, curve: Any, thickness: float, beside: str, said: str, kind: str, **attributes: Any) -> None:
        begin, middle, finish = curve
        self.places += [*(at(curve, it) for it in SAMPLES), finish]
        path = element("path", d=f"M{pair(begin)}Q{pair(middle)} {pair(finish)}", stroke_width=short(thickness), marker_end="url(#head)")
        self.lines.append(element("g", title(said), path, class_=kind, **attributes))
        box = label_place(curve, beside, self.taken) if beside else None
        if box:
            self.taken.append(box)
            self.labels.append(text(box[0], box[1] + 4, beside, class_="small halo beside", data_of=said))

    def add_link(self, a: str, b: str) -> None:
        curve = curve_of(self.boxes[a], self.boxes[b], [it for node, it in self.boxes.items() if node not in (a, b)])
        thickness, beside, is_shared = look(self.topology, self.links[a, b])
        said = f"{a} to {b}: {in_words(self.topology, self.links[a, b])}"
        self.add_arrow(curve, thickness, beside, said, "link shared" if is_shared else "link", data_link=f"{a} {b}")

    def add_hub(self, hub: Hub) -> None:
        """A hub stands amid its nodes, with the widths of the groups that are no port."""
        at_port = [ports(self.topology, hub, side) for side in (0, 1)]
        of_port = {it for side in at_port for found in side.values() for it in found if hub.is_whole}
        inner = [it for it in hub.groups if it not in of_port]
        named = ", ".join(f"g{it}: {self.topology['groups'][it]['width']}" for it in inner[:3]) + (", .." if len(inner) > 3 else "") or "switch"
        ends = [self.boxes[it] for it in {*hub.senders(), *hub.receivers()}]
        middle = sum(it[0] for it in ends) / len(ends), sum(it[1] for it in ends) / len(ends)
        lanes = 0 if hub.is_whole else 5 * len(hub.links)
        box = free_box(middle, max(26, LETTER * len(named) / 2 + 8), max(16, lanes), self.taken)
        self.taken.append(box)
        said = f"Through here go {many(len(hub.links), 'link')}: {in_words(self.topology, hub.groups)}"
        self.labels.append(element("g", title(said), element("rect", x=short(box[0] - box[2]), y=short(box[1] - box[3]), width=short(2 * box[2]),
                                                             height=short(2 * box[3]), rx=4, class_="hub"),
                                   text(box[0], box[1] + 4, named, class_="small halo"), class_="shared-groups", data_groups=" ".join(map(str, hub.groups))))
        if hub.is_whole:
            self.add_ports(hub, box, at_port)
        else:
            self.add_lanes(hub, box)

    def add_ports(self, hub: Hub, box: Box, at_port: List[Dict[str, List[int]]]) -> None:
        """A line from each sender to the hub, and to each receiver; those of one port meet at the hub."""
        for side, nodes in enumerate((hub.senders(), hub.receivers())):
            for node in nodes:
                found = at_port[side][node]
                together = [it for it in nodes if found and at_port[side][it] == found] or [node]
                middle = [sum(self.boxes[it][axis] for it in together) / len(together) for axis in (0, 1)]
                # The port in and the port out of a node stand beside each other.
                away = (8 if side else -8) if hub.senders() == hub.receivers() or set(hub.senders()) & set(hub.receivers()) else 0
                x, y = edge(box, (middle[0], middle[1]), 1)
                along = max(1e-9, ((middle[0] - box[0]) ** 2 + (middle[1] - box[1]) ** 2) ** 0.5)
                port = x - (middle[1] - box[1]) / along * away, y + (middle[0] - box[0]) / along * away
                out = edge(self.boxes[node], port, 1 if side == 0 else 4)
                width = min((self.topology["groups"][it]["width"] for it in found or hub.groups))
                words = in_words(self.topology, found) if found else "no port of its own"
                curve = (out, half(out, port), port) if side == 0 else (port, half(out, port), out)
                said = f"{node} {'out' if side == 0 else 'in'}: {words}"
                self.add_arrow(curve, thickness_of(width), str(width) if found and width > 1 else "", said, "port",
                               data_port=f"{'out' if side == 0 else 'in'} {node} {' '.join(map(str, hub.groups))}")

    def add_lanes(self, hub: Hub, box: Box) -> None:
        """A line for each link, through the hub."""
        links = sorted(hub.links, key=lambda it: (self.boxes[it[0]][1], self.boxes[it[1]][1]))
        for place, (a, b) in enumerate(links):
            y = box[1] + (place - (len(links) - 1) / 2) * 2 * box[3] / (len(links) + 1)
            side = 1 if self.boxes[b][0] >= self.boxes[a][0] else -1
            enter, leave = (box[0] - side * box[2], y), (box[0] + side * box[2], y)
            begin, finish = edge(self.boxes[a], enter, 1), edge(self.boxes[b], leave, 4)
            thickness, _, _ = look(self.topology, self.links[a, b])
            path = element("path", d=f"M{pair(begin)}L{pair(enter)}L{pair(leave)}L{pair(finish)}", stroke_width=short(thickness), marker_end="url(#head)")
            said = f"{a} to {b}: {in_words(self.topology, self.links[a, b])}"
            self.lines.append(element("g", title(said), path, class_="link shared", data_link=f"{a} {b}"))


def groups_of_links(topology: dict) -> Dict[Tuple[str, str], List[int]]:
    """The numbers of the groups in which each link stands."""
    found: Dict[Tuple[str, str], List[int]] = {}
    for number, group in enumerate(topology["groups"]):
        for a, b in group["links"]:
            found.setdefault((a, b), []).append(number)
    return found


def look(topology: dict, found: List[int]) -> Tuple[float, str, bool]:
    """How thick a link is, the numbers beside it, and whether it shares a group with others."""
    groups = [topology["groups"][it] for it in found]
    width = min(it["width"] for it in groups)
    is_shared = any(len(it["links"]) > 1 for it in groups)
    beside = " ".join(f"g{it}" for it in found) if is_shared else str(width) if width > 1 else ""
    return thickness_of(width), beside, is_shared


def thickness_of(width: int) -> float:
    return 1 + 0.8 * (min(width, 8) - 1)


def half(one: Tuple[float, float], other: Tuple[float, float]) -> Tuple[float, float]:
    return (one[0] + other[0]) / 2, (one[1] + other[1]) / 2


def in_words(topology: dict, found: List[int]) -> str:
    return ", ".join(f"group {it} of width {topology['groups'][it]['width']}" for it in found)


def pair(place: Tuple[float, float]) -> str:
    return f"{short(place[0])} {short(place[1])}"


def explained(topology: dict) -> str:
    """What the drawing shows, in words."""
    widths = Counter(it["width"] for it in topology["groups"])
    said = ", ".join(f"{many(count, 'group')} of width {width}" for width, count in sorted(widths.items()))
    shared = sum(len(it["links"]) > 1 for it in topology["groups"])
    more = (f" {many(shared, 'group')} of several links, which share the width: a box stands for those that have links in common. Lines that meet "
            "at a box share a port; dashed arrows share a group, whose number and width stand in the box or beside them.")
    return f"{said or 'No group'}. Of width w, w chunks cross a group's links in each round.{more if shared else ''}"


def groups_table(topology: dict) -> str:
    rows = ((str(number), str(it["width"]), " ".join(escape(f"{a}>{b}") for a, b in it["links"])) for number, it in enumerate(topology["groups"]))
    return table(("Group", "Width", "Links"), rows, class_="groups")
