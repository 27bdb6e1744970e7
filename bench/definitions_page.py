"""The page of definitions: what each definition of specs/ says of itself, and which examples and laws speak of it."""
import dataclasses
from collections.abc import Iterator

from citing import ITEM, PREMISE, ROOT, Module, Name, cited, contract_of, found_at, functions_of, load, of_contract, together
from reading_order import in_order

PAGE = ROOT / "docs" / "DEFINITIONS.md"
HEAD = """# Definitions

What the theorem speaks of: each definition that the contract of `run` or the headline cites, with what it says of itself. `bench/definitions --write` makes this page from the comments in `crates/*/specs`, and `bench/definitions CRATE` prints the same of all definitions of a crate. Modules stand behind those that they stand on, as in `THEOREM.md`. Behind a definition stand the examples that the gate proves of it, and its laws. These are public functions without a body, in `vectors.rt` and in the files of laws of some crate's `src`. `GLOSSARY.md` has the field's term for each word, and `FORMATS.md` the texts whole.
"""
SIGNS = str.maketrans({"|": "\\|", "<": "\\<", "*": "\\*", "_": "\\_"})


@dataclasses.dataclass
class Row:
    """Names that stand under one comment."""
    names: list[str]
    comment: str


@dataclasses.dataclass
class Told:
    """What a module says of itself, and its rows."""
    about: str
    rows: list[Row]


def escaped(comment: str) -> str:
    """A comment as a cell: what stands between back quotes stays."""
    parts = comment.split("`")
    return "`".join(it.replace("|", "\\|") if at % 2 else it.translate(SIGNS) for at, it in enumerate(parts))


def read_rows(text: str) -> Told:
    """The comments of a file of specs/, and the public items below each."""
    about, rows, comment, is_head = "", [], "", True
    for line in text.splitlines():
        if line.startswith("-- ----"):
            rows.append(Row([], line.strip("- ")))
            comment = ""
        elif line.startswith("-- "):
            comment = f"{comment} {line[3:].strip()}".strip()
        elif is_head and comment:
            about, comment, is_head = comment, "", False
        elif not line.strip():
            comment = ""
        elif ITEM.match(line) and " pub " in f" {line.partition(':')[0]} " and not line.startswith(("use ", "pub use ", "pub mod ", " ")):
            name = ITEM.match(line)
            if name:
                put(rows, name[1], comment)
            comment = ""
    return Told(about, [it for it in rows if it.names])


def put(rows: list[Row], name: str, comment: str) -> None:
    """Puts a name under its comment; without one of its own it stands with the name before, or under the heading of its section."""
    if comment or not rows:
        rows.append(Row([name], comment))
    elif name not in rows[-1].names:
        rows[-1].names.append(name)


def spoken_of(modules: dict[str, Module]) -> dict[Name, list[str]]:
    """The examples and laws that name each definition."""
    found: dict[Name, list[str]] = {}
    for path in sorted(ROOT.glob("crates/*/src/**/*.rt")):
        if path.stem != "vectors" and not path.stem.endswith("laws"):
            continue
        crate = path.relative_to(ROOT / "crates").parts[0]
        for function in functions_of(crate, str(path.relative_to(ROOT / "crates" / crate / "src"))):
            contract = contract_of(crate, function)
            for where, name in cited(Module(contract.module.path, contract.module.imports), contract.text):
                definition = found_at(modules, where, name or "")
                if definition and function not in found.setdefault(definition, []):
                    found[definition].append(function)
    return found


def in_theorem(modules: dict[str, Module]) -> set[Name]:
    laws = functions_of("sccl_run", "headline.rt")
    return set(together(of_contract(modules, contract_of("sccl_run", it)) for it in ["run", *laws]).definitions) | {PREMISE}


def table(path: str, told: Told, cited_here: set[str], speaking: dict[Name, list[str]]) -> Iterator[str]:
    for row in told.rows:
        names = [it for it in row.names if it in cited_here]
        functions = dict.fromkeys(it for name in names for it in speaking.get((path, name), []))
        if names:
            yield f"| {', '.join(f'`{it}`' for it in names)} | {escaped(row.comment)} | {', '.join(f'`{it}`' for it in functions)} |"


def file_of(path: str) -> str:
    _, crate, *rest = path.split(".")
    return "/".join(["crates", crate, *rest]) + ".antt"


def sections(modules: dict[str, Module], wanted: dict[str, set[str]]) -> Iterator[str]:
    """The wanted names of each module, crate by crate."""
    speaking, crate = spoken_of(modules), ""
    for path in in_order(set(wanted), modules):
        module, told = modules[path], read_rows((ROOT / file_of(path)).read_text())
        if module.crate != crate:
            crate = module.crate
            yield f"## `{crate}`\n"
        yield f"### {module.short}\n\n{told.about}\n\n| Name | What it says | Examples and laws |\n|---|---|---|"
        yield from table(path, told, wanted[path], speaking)
        yield ""


def page() -> str:
    """The page: what the theorem cites."""
    modules = load()
    wanted: dict[str, set[str]] = {}
    for path, name in in_theorem(modules):
        wanted.setdefault(path, set()).add(name)
    return "\n".join([HEAD, *sections(modules, wanted)]).rstrip() + "\n"


def of_crate(crate: str) -> str:
    """The same of all definitions of a crate."""
    modules = load()
    return "\n".join(sections(modules, {path: set(it.items) for path, it in modules.items() if it.crate == crate}))
