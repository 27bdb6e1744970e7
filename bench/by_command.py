"""What single commands cite of the theorem: the cases of the definitions that go by the command, and by what it asks for.

The rule: a definition by cases has a line for each case. The cases of a command are those of `task_by` and `row_of` that name its
variant; and those of `IsAnswer` and `LeavesOff` that name a variant of `Task` that the former cite. A refusal's case is every command's."""
import re
from collections.abc import Iterator

from citing import Module, Name, Reading, cited, read_on, together

RULES = "Rattle.run_rules.specs."
BY_COMMAND = [(RULES + "Tasks", "task_by"), (RULES + "Commands", "row_of")]
BY_TASK = [(RULES + "Answers", "IsAnswer"), (RULES + "Answers", "LeavesOff")]
TASK = (RULES + "Tasks", "Task")
# What chooses between commands: nobody goes on from these to read one of them.
CHOOSING = frozenset([*BY_COMMAND, *BY_TASK, TASK])


def cases(module: Module, item: str) -> Iterator[str]:
    """The cases of a definition, without its type."""
    found: list[str] = []
    for line in module.items[item]:
        if line.startswith(" ") and found:
            found[-1] += "\n" + line
        else:
            found.append(line)
    return (it for it in found if not re.match(rf"(abbrev |unfoldable |pub )*{item} :", it))


def commands(modules: dict[str, Module]) -> list[str]:
    """The variants of a command, as the cases of what is due name them."""
    path, item = BY_COMMAND[0]
    return re.findall(r"\bcommand\.(\w+)", "\n".join(cases(modules[path], item)))


def of_cases(modules: dict[str, Module], where: Name, word: str) -> Reading:
    """What the cases cite that name this word on their left."""
    module = modules[where[0]]
    lines = [it for it in cases(module, where[1]) if re.search(rf"[ .(]{word}\b", it.partition("=")[0])]
    return read_on(modules, cited(module, "\n".join(lines)), CHOOSING)


def variants(modules: dict[str, Module], reading: Reading) -> set[str]:
    """The variants of `Task` that the definitions of a reading make."""
    tasks = [name for name, of in modules[TASK[0]].types.items() if of == TASK[1]]
    text = "\n".join("\n".join(modules[path].items[name]) for path, name in reading.definitions if path == TASK[0])
    return {it for it in tasks if re.search(rf"\b{it}\b", text)}


def of_command(modules: dict[str, Module], command: str) -> Reading:
    due = together(of_cases(modules, it, command) for it in BY_COMMAND)
    own = "\n".join(it for it in cases(modules[TASK[0]], "task_by") if re.search(rf"command\.{command}\b", it))
    asked = variants(modules, due) | {it for it in ("Write", "Try") if re.search(rf"\b{it}\b", own)}
    return together([due, *(of_cases(modules, where, it) for where in BY_TASK for it in asked)])


def table(modules: dict[str, Module], whole: Reading) -> Iterator[str]:
    """A line for each command: what it cites, and what no other does; and one for what is read whatever the command is."""
    readings = {it: of_command(modules, it) for it in commands(modules)}
    for command, reading in readings.items():
        others = set().union(*(it.definitions for name, it in readings.items() if name != command))
        own = {it: lines for it, lines in reading.definitions.items() if it not in others}
        yield f"{command.lower():12} {reading.counted()}; of these for it alone {len(own)} in {sum(own.values()):,}"
    of_some = set().union(*(it.definitions for it in readings.values()))
    rest = {it: lines for it, lines in whole.definitions.items() if it not in of_some}
    yield f"{'for none':12} {len(rest)} definitions in {sum(rest.values()):,} lines: the words of the command line, refusals, and how a run ends"
