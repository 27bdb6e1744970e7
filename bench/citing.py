"""What the definitions of specs/ cite, by plain rules: a word of a definition that its file imports or defines is cited."""
import dataclasses
import pathlib
import re
import sys
from collections.abc import Iterable, Iterator

ROOT = pathlib.Path(__file__).resolve().parent.parent
WORD = re.compile(r"[^\s(){}\[\];,.]+")
ITEM = re.compile(r"^(?:abbrev |unfoldable )?(?:pub )?(?:abbrev )?(?:(?:record|data) )?([^\s:(){}]+)")
CONSTRUCTOR = re.compile(r"^ +([^\s:(){}]+)(?: [^:]*)? : ")
CLAUSE = re.compile(r"^ +ensures\*? (?:([a-z_0-9]+) )?\{(.*?)\}$", re.M | re.S)

# A module's path, and a name in it.
Name = tuple[str, str]
# what each law of the headline supposes of a run
PREMISE: Name = ("Rattle.sccl_run.specs.Laws", "IsRightRun")


@dataclasses.dataclass
class Module:
    """A file of specs/: where each name that it imports comes from, the lines of each item, and the type of each constructor."""
    path: str
    imports: dict[str, tuple[str, str | None]] = dataclasses.field(default_factory=dict)
    items: dict[str, list[str]] = dataclasses.field(default_factory=dict)
    types: dict[str, str] = dataclasses.field(default_factory=dict)

    @property
    def crate(self) -> str:
        return self.path.split(".")[1]

    @property
    def short(self) -> str:
        return self.path.split(".specs.", 1)[1].replace(".", "/")

    def is_inner(self) -> bool:
        return ".specs.inner." in self.path


@dataclasses.dataclass
class Reading:
    """What a text cites, and what that cites: definitions with their number of lines, types that Rust declares, names of the kit."""
    definitions: dict[Name, int]
    declared: set[str]
    kit: set[Name]

    def lines(self) -> int:
        return sum(self.definitions.values())

    def counted(self) -> str:
        return f"{len(self.definitions)} definitions in {self.lines():,} lines"


def parts(names: str) -> Iterator[str]:
    """The parts of a list that stand between commas, each with the list that it has in braces."""
    depth = start = 0
    for at, sign in enumerate(names + ","):
        depth += (sign == "{") - (sign == "}")
        if sign == "," and not depth:
            yield names[start:at].strip()
            start = at + 1


def brought(path: str, names: str) -> Iterator[tuple[str, str, str | None]]:
    """The names of a list in braces behind a path."""
    for part in filter(None, parts(names)):
        inner, _, rest = part.partition(".{")
        if rest:
            yield from brought(f"{path}.{inner}", rest.removesuffix("}"))
            continue
        whole, _, new = part.partition(" as ")
        where, _, old = f"{path}.{whole.strip()}".rpartition(".")
        yield new.strip() or old, where, old


def imported(line: str) -> Iterator[tuple[str, str, str | None]]:
    """The names that a line brings in, each with where it comes from."""
    path, _, names = line.split("use ", 1)[1].strip().rstrip(";").partition(".{")
    if names:
        yield from brought(path, names.removesuffix("}"))
        return
    old, _, new = path.partition(" as ")
    if new:
        yield new.strip(), old.strip(), None


def is_case_of(line: str, current: str | None) -> bool:
    """Whether the line is a case of the operator that is defined."""
    parts = [it for it in (current or "").split("◌") if it]
    return "◌" in (current or "") and not line.startswith(("abbrev", "unfoldable", "pub")) and all(f" {it} " in line for it in parts)


def read_item(module: Module, line: str, current: str | None) -> str | None:
    """Puts a line to the item that it belongs to, and gives the item."""
    if not line.strip() or line.startswith(("--", "infix")):
        return None
    if line.startswith(("pub mod", "module", "mod ")):
        return current
    found = ITEM.match(line)
    if line.startswith(" ") or not found or is_case_of(line, current):
        if current:
            module.items[current].append(line)
            made = CONSTRUCTOR.match(line)
            if made and "data " in module.items[current][0]:
                module.types[made[1]] = current
        return current
    module.items.setdefault(found[1], []).append(line)
    return found[1]


def read_module(path: str, text: str) -> Module:
    module, current = Module(path), None
    for line in text.splitlines():
        if line.startswith(("use ", "pub use ", "ghost use ")):
            module.imports |= {name: (where, old) for name, where, old in imported(line)}
        else:
            current = read_item(module, line, current)
    return module


def load() -> dict[str, Module]:
    """The modules of all specs/, by path."""
    found = {}
    for file in sorted(ROOT.glob("crates/*/specs/**/*.antt")):
        crate, _, *rest = file.relative_to(ROOT / "crates").with_suffix("").parts
        path = ".".join(["Rattle", crate, "specs", *rest])
        module = read_module(path, file.read_text())
        if module.items:
            found[path] = module
    return found


def words_of(text: str) -> set[str]:
    found = set(WORD.findall(text))
    return found | {">>="} if "do" in found else found


def is_said(name: str, words: set[str]) -> bool:
    """Whether a text of these words names it; an operator by all its parts."""
    return name in words or ("◌" in name and all(it in words for it in name.split("◌") if it))


def cited(module: Module, text: str) -> Iterator[tuple[str, str | None]]:
    """What a text of this module names, each by its module and its name there."""
    words = words_of(text)
    for name, where in module.imports.items():
        if is_said(name, words):
            yield where
    for name in module.items:
        if is_said(name, words):
            yield module.path, name
    for name, of in module.types.items():
        if name in words:
            yield module.path, of


def found_at(modules: dict[str, Module], path: str, name: str) -> Name | None:
    """The definition behind a name, through files that hand it on."""
    while path in modules:
        module = modules[path]
        if name in module.items:
            return path, name
        if name in module.types:
            return path, module.types[name]
        if name not in module.imports:
            return None
        path, name = module.imports[name][0], module.imports[name][1] or name
    return None


def read_on(modules: dict[str, Module], begin: Iterable[tuple[str, str | None]], passed: frozenset[Name] = frozenset()) -> Reading:
    """What these cite, and what that cites, without going on from what is passed."""
    reading, todo = Reading({}, set(), set()), list(begin)
    while todo:
        path, name = todo.pop()
        if ".specs.declared." in path:
            reading.declared.add(path.replace(".TheVariants", ""))
        elif path.startswith("Rattle.") and not (ROOT / "crates" / path.split(".")[1]).is_dir():
            reading.kit.add((path, name or ""))
        elif name:
            where = found_at(modules, path, name)
            if where and where not in reading.definitions and where not in passed:
                lines = modules[where[0]].items[where[1]]
                reading.definitions[where] = len(lines)
                todo += cited(modules[where[0]], "\n".join(lines))
    return reading


@dataclasses.dataclass
class Contract:
    """A public function: its file as a module, its text, and its clauses in their order."""
    module: Module
    text: str
    clauses: list[tuple[str, str]]


def contract_of(crate: str, function: str) -> Contract:
    for path in sorted((ROOT / "crates" / crate / "src").rglob("*.rt")):
        text = path.read_text()
        found = re.search(rf"pub fn {function}\b.*?\n\{{\}}?\n", text, re.S)
        if found:
            clauses = [(name or "(the one)", body) for name, body in CLAUSE.findall(found[0])]
            return Contract(read_module(f"Rattle.{crate}.specs.the_contract", text), found[0], clauses)
    sys.exit(f"no function {function} in {crate}")


def of_contract(modules: dict[str, Module], contract: Contract, text: str | None = None, passed: frozenset[Name] = frozenset()) -> Reading:
    """What a contract cites, or a part of it."""
    module = Module(contract.module.path, contract.module.imports)
    return read_on(modules, cited(module, contract.text if text is None else text), passed)


def functions_of(crate: str, file: str) -> list[str]:
    """The public functions of a source file, in their order."""
    return re.findall(r"^pub fn (\w+)", (ROOT / "crates" / crate / "src" / file).read_text(), re.M)


def together(readings: Iterable[Reading]) -> Reading:
    total = Reading({}, set(), set())
    for it in readings:
        total.definitions |= it.definitions
        total.declared |= it.declared
        total.kit |= it.kit
    return total
