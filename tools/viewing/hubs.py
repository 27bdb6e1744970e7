"""Groups of several links, each drawn as one thing through which the links go."""
from typing import Dict, List, NamedTuple, Set, Tuple

Link = Tuple[str, str]
# A hub of which not every sender reaches every receiver has a line for each link, if there are at most so many.
MOST_LANES = 16


class Hub(NamedTuple):
    """Groups that share links: their numbers, their links, and whether each sender reaches each receiver."""
    groups: List[int]
    links: List[Link]
    is_whole: bool

    def senders(self) -> List[str]:
        return list(dict.fromkeys(a for a, _ in self.links))

    def receivers(self) -> List[str]:
        return list(dict.fromkeys(b for _, b in self.links))


def hubs_of(topology: dict) -> List[Hub]:
    """The hubs that can be drawn; links of other shared groups are drawn as arrows, with the numbers of their groups."""
    found: List[Tuple[List[int], Dict[Link, None]]] = []
    for number, group in enumerate(topology["groups"]):
        links = dict.fromkeys((a, b) for a, b in group["links"])
        if len(links) < 2:
            continue
        joined = [it for it in found if links.keys() & it[1].keys()]
        numbers = sorted([number, *(other for it in joined for other in it[0])])
        merged = {link: None for it in joined for link in it[1]}
        found = [it for it in found if it not in joined] + [(numbers, {**merged, **links})]
    hubs = [Hub(numbers, list(links), is_whole(set(links))) for numbers, links in found]
    return [it for it in hubs if it.is_whole or len(it.links) <= MOST_LANES]


def is_whole(links: Set[Link]) -> bool:
    senders, receivers = {a for a, _ in links}, {b for _, b in links}
    return links == {(a, b) for a in senders for b in receivers if a != b}


def ports(topology: dict, hub: Hub, side: int) -> Dict[str, List[int]]:
    """For each node at the side of the senders (0) or of the receivers (1) the groups that are a port of it: with some of that side's
    nodes they have all their links, and with the others none."""
    all_of = {node: {link for link in hub.links if link[side] == node} for node in (hub.senders(), hub.receivers())[side]}
    found: Dict[str, List[int]] = {node: [] for node in all_of}
    for number in hub.groups:
        links = {(a, b) for a, b in topology["groups"][number]["links"]}
        nodes = [node for node in all_of if all_of[node] & links]
        if len(nodes) < len(all_of) and all(all_of[node] <= links for node in nodes):
            for node in nodes:
                found[node].append(number)
    return found
