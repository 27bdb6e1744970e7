"""The order in which the theorem's modules are read, each behind all that it stands on; and the modules that the theorem does not cite."""
import re
from collections.abc import Iterator

from citing import ROOT, Module, Reading


def uses_of(module: Module, modules: dict[str, Module]) -> list[str]:
    """The modules that a module imports from."""
    return sorted({path for path, _ in module.imports.values() if path in modules and path != module.path})


def crates_in_order() -> list[str]:
    """The crates, each behind those that it stands on, otherwise as crates.txt has them."""
    rows = re.findall(r"^(\w+)[^:\n#]*:(.*)$", (ROOT / "crates.txt").read_text(), re.M)
    uses = {name: line.partition("#")[0].split() for name, line in rows}
    found: list[str] = []

    def put(name: str) -> None:
        if name in uses and name not in found:
            for it in uses[name]:
                put(it)
            found.append(name)

    for name in uses:
        put(name)
    return found


def in_order(paths: set[str], modules: dict[str, Module]) -> list[str]:
    """These modules crate by crate, each behind those that it imports from."""
    found: list[str] = []

    def put(path: str) -> None:
        if path not in found:
            for it in uses_of(modules[path], modules):
                if it in paths and modules[it].crate == modules[path].crate:
                    put(it)
            found.append(path)

    for crate in crates_in_order():
        for path in sorted(it for it in paths if modules[it].crate == crate):
            put(path)
    return found


def modules_of(reading: Reading) -> set[str]:
    return {path for path, _ in reading.definitions}


def order(reading: Reading, modules: dict[str, Module]) -> Iterator[str]:
    """A line for each module of a reading: its crate, its name, and the definitions that are read of it, in the order of the file."""
    for path in in_order(modules_of(reading), modules):
        names = [name for name in modules[path].items if (path, name) in reading.definitions]
        yield f"{modules[path].crate}/{modules[path].short}: {' '.join(names)}"


def aside(reading: Reading, modules: dict[str, Module]) -> Iterator[str]:
    """A line for each crate with the modules that the reading leaves out: those of specs/, and behind a semicolon those of specs/inner."""
    left = set(modules) - modules_of(reading)
    for crate in crates_in_order():
        of_crate = [modules[it] for it in in_order({it for it in left if modules[it].crate == crate}, modules)]
        outer = " ".join(it.short for it in of_crate if not it.is_inner())
        inner = " ".join(it.short for it in of_crate if it.is_inner())
        if of_crate:
            yield f"{crate}: {outer}{'; ' if outer and inner else ''}{inner}"
