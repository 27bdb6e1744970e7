"""How far any schedule can go, by counting what has to come into sets of nodes."""
from typing import Any, Dict, Iterator, List, Tuple

from .runs import ADDING, OF_PART, placements

# Two whole numbers N and D, and names of nodes: rounds times D is at least N times chunks, by what has to come into these nodes.
Floor = Tuple[int, int, List[str]]
# A reduction goes backwards as the collective that copies does forwards.
COPIED = {"reduce": "broadcast", "reducescatter": "allgather"}
# Groups that links come in by, each a width and its links as a set of bits.
Entering = List[Tuple[int, int]]


def floors(report: Dict[str, Any]) -> Dict[str, Floor]:
    """For each part of a report the floor of all sets of nodes."""
    return {it["part"]: floor(report, it["part"]) for it in report["frontiers"]}


def floor(report: Dict[str, Any], part: str) -> Floor:
    """The first set with the greatest need for what can come in, where a need of which nothing can come in is the greatest. Sets are
    numbers whose bit n stands for node n."""
    collective = OF_PART.get(part, report["words"]["collective"])
    nodes = report["topology"]["nodes"]
    least = len(nodes) if collective == "alltoall" else 1
    before, after = placements(COPIED.get(collective, collective), report["words"].get("root"), report["topology"], least)
    sides = [(bits(nodes, a), bits(nodes, b)) for a, b in zip(before, after)]
    best: Floor = 0, 1, []
    for some, room, groups in sets(report["topology"], collective in ADDING):
        need = sum(1 for a, b in sides if b & some and not a & some)
        worse = lambda room: best[0] * least * room > need * best[1]
        if not need or best[1] == 0 or worse(room) or groups and worse(room + least_room(groups) - 1e-6):
            continue
        room = least * (room + room_of(groups))
        if room == 0 or need * best[1] > best[0] * room:
            best = need, room, [it for place, it in enumerate(nodes) if some >> place & 1]
    return best


def bits(nodes: List[str], some: List[str]) -> int:
    return sum(1 << place for place, it in enumerate(nodes) if it in some)


def sets(topology: Dict[str, Any], is_turned: bool) -> Iterator[Tuple[int, int, Entering]]:
    """Each set but the empty one; what comes in from outside by groups that have no link in common with others; and the others by which
    links come in. The links are turned round for a reduction."""
    number = {it: place for place, it in enumerate(topology["nodes"])}
    groups = [(it["width"], [(number[b], number[a]) if is_turned else (number[a], number[b]) for a, b in it["links"]]) for it in topology["groups"]]
    links = list(dict.fromkeys(link for _, its in groups for link in its))
    masks = [(width, sum(1 << links.index(it) for it in set(its))) for width, its in groups]
    is_alone = [not any(mask & other for at, (_, other) in enumerate(masks) if at != place) for place, (_, mask) in enumerate(masks)]
    alone, others = ([it for it, alone in zip(masks, is_alone) if alone == which] for which in (True, False))
    into = [sum(1 << place for place, it in enumerate(links) if it[1] == node) for node in number.values()]
    out = [sum(1 << place for place, it in enumerate(links) if it[0] == node) for node in number.values()]
    inner, outer = [0], [0]
    for some in range(1, 1 << len(number)):
        rest, node = some & some - 1, (some & -some).bit_length() - 1
        inner.append(inner[rest] | into[node])
        outer.append(outer[rest] | out[node])
        coming = inner[some] & ~outer[some]
        yield some, sum([width for width, mask in alone if mask & coming]), [(width, mask & coming) for width, mask in others if mask & coming]


def least_room(groups: Entering) -> float:
    """No more than any cover carries: each link has a price, the links of a group together at most its width."""
    prices: Dict[int, float] = {}
    for width, links in groups:
        each = width / bin(links).count("1")
        while links:
            link = links & -links
            prices[link] = min(each, prices.get(link, each))
            links ^= link
    return sum(prices.values())


def room_of(groups: Entering) -> int:
    """The least that three covers of the links carry: groups in their order, in its reverse, and those with the most new links for
    their width first."""
    return min(sum(in_order(groups)), sum(in_order(groups[::-1])), sum(greedy(groups))) if groups else 0


def in_order(groups: Entering) -> Iterator[int]:
    taken = 0
    for width, links in groups:
        if links & ~taken:
            taken |= links
            yield width


def greedy(groups: Entering) -> Iterator[int]:
    taken = 0
    while True:
        best, most = 0, (0, 1)
        for width, links in groups:
            count = bin(links & ~taken).count("1")
            if count * most[1] > most[0] * width:
                best, most = links, (count, width)
        if not best:
            return
        taken |= best
        yield most[1]


def is_cut(floor_: Floor, rounds: int, chunks: int) -> bool:
    """Whether a candidate is below the floor, so that it has no schedule."""
    return rounds * floor_[1] < floor_[0] * chunks
