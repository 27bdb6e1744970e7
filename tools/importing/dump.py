"""The XML that NCCL and RCCL write of a machine into the file that NCCL_TOPO_DUMP_FILE names."""
from __future__ import annotations

from dataclasses import dataclass, field
from fractions import Fraction
from typing import Dict, List, Optional, Tuple
from xml.parsers import expat

from .machine import Card, Machine, Refused, symmetric

# Where a lane leads, by the class of the device at its other end.
TO_ACCELERATOR, TO_SWITCH = "0x03", "0x068000"
LINKS = "nvlink", "xgmi"
# The speed of a lane each way in Gb/s, by the first version of a chip's architecture that has it (NVLink 1; NVLink 2 to 4).
NVLINK_SPEEDS = (60, 160), (70, 200)


@dataclass
class Element:
    name: str
    attributes: Dict[str, str]
    line: int
    above: Optional[Element]
    inner: List[Element] = field(default_factory=list)

    def all(self, *names: str) -> List[Element]:
        """The elements below that have one of the names, in their order."""
        return [found for it in self.inner for found in ([it] if it.name in names else []) + it.all(*names)]

    def value(self, name: str) -> str:
        if name not in self.attributes:
            raise Refused(f"<{self.name}> has no `{name}`", self.line)
        return self.attributes[name]

    def number(self, name: str) -> int:
        found = self.value(name)
        if not found.isdecimal() or len(found) > 9:
            raise Refused(f"`{name}` is no number: {found[:20]}", self.line)
        return int(found)

    def chain(self) -> List[Element]:
        """The elements that it stands in, the outermost first, and itself."""
        return (self.above.chain() if self.above else []) + [self]


class Tree:
    """Reads XML without declarations of its own into elements."""

    def __init__(self, text: bytes) -> None:
        self.root = self.at = Element("", {}, 0, None)
        self.parser = expat.ParserCreate()
        self.parser.StartElementHandler, self.parser.EndElementHandler = self.start, self.end
        self.parser.StartDoctypeDeclHandler = self.refuse
        try:
            self.parser.Parse(text, True)
        except expat.ExpatError as why:
            raise Refused(f"it is no XML: {expat.ErrorString(why.code)}", why.lineno) from None

    def start(self, name: str, attributes: Dict[str, str]) -> None:
        made = Element(name, attributes, self.parser.CurrentLineNumber, self.at)
        self.at.inner.append(made)
        self.at = made

    def end(self, _: str) -> None:
        assert self.at.above is not None
        self.at = self.at.above

    def refuse(self, *_: object) -> None:
        raise Refused("a dump has no document type", self.parser.CurrentLineNumber)


def machine_of_dump(text: bytes) -> Machine:
    """The machine of a dump: accelerators in the order of their ranks or, where not all have one, of their numbers."""
    (system,) = Tree(text).root.inner
    if system.name != "system":
        raise Refused(f"the outermost element is <{system.name}> and not <system>", system.line)
    accelerators = system.all("gpu")
    if not accelerators:
        raise Refused("no accelerator is in it: there is no <gpu>", system.line)
    key = "rank" if all("rank" in it.attributes for it in accelerators) else "dev"
    accelerators.sort(key=lambda it: it.number(key))
    names = [f"gpu{it.number('dev')}" for it in accelerators]
    for number, it in enumerate(accelerators):
        if names[number] in names[:number]:
            raise Refused(f"{names[number]} stands twice", it.line)
    lanes, ports = links_of(accelerators)
    symmetric(lanes, names, [it.line for it in accelerators])
    return Machine(names, lanes, ports, cards_of(system, accelerators), speed_of(accelerators))


def links_of(accelerators: List[Element]) -> Tuple[Dict[Tuple[int, int], int], List[int]]:
    """The lanes between accelerators, and those of each to a switch. Lanes to processors, and to what is not there, don't count."""
    places = {it.above.value("busid").lower(): number for number, it in enumerate(accelerators) if it.above}
    lanes: Dict[Tuple[int, int], int] = {}
    ports = [0] * len(accelerators)
    for number, it in enumerate(accelerators):
        for link in it.all(*LINKS):
            leads = link.attributes.get("tclass", TO_ACCELERATOR)
            to = places.get(link.value("target").lower())
            if leads.startswith(TO_SWITCH):
                ports[number] += link.number("count")
            elif leads.startswith(TO_ACCELERATOR) and to is not None:
                lanes[number, to] = lanes.get((number, to), 0) + link.number("count")
    return lanes, ports


def cards_of(system: Element, accelerators: List[Element]) -> List[Card]:
    """The network cards. One is the farther from an accelerator the fewer elements have both inside."""
    found: List[Card] = []
    for it in system.all("net"):
        around = {id(above) for above in it.chain()}
        common = [sum(id(above) in around for above in one.chain()) for one in accelerators]
        # (dumps have Mb/s)
        speed = Fraction(it.number("speed"), 1000) if "speed" in it.attributes else None
        if speed == 0:
            raise Refused("a network card has the speed 0", it.line)
        found.append(Card(it.attributes.get("name", f"card {len(found)}"), speed, [-count for count in common]))
    return found


def speed_of(accelerators: List[Element]) -> Optional[Fraction]:
    """The speed of a lane, where the oldest accelerator tells its architecture and its lanes are NVLinks."""
    if any(it.all("xgmi") for it in accelerators) or not all("sm" in it.attributes for it in accelerators):
        return None
    oldest = min(it.number("sm") for it in accelerators)
    return next((Fraction(speed) for version, speed in reversed(NVLINK_SPEEDS) if version <= oldest), None)
