"""The header, and the kinds, replies, refusals and faults in Python."""
import textwrap
from typing import Any, Dict, List, Optional, Sequence

from pycparser import c_ast

from generator import calls, header
from generator.calls import Call
from generator.header import Enum, Number, camel, parameters, pointed


def python_type(node: Any, opaque: Sequence[str] = ()) -> str:
    """A type of C, as ctypes has it. Nobody looks into what an opaque one points to."""
    if isinstance(node, c_ast.ArrayDecl):
        return f"{python_type(node.type, opaque)} * {node.dim.value}"
    name, depth, _ = pointed(node)
    if (name, depth) in (("void", 1), ("char", 1)):
        return f"c_{name}_p"
    if name in opaque:
        return "c_void_p" if depth == 1 else f"POINTER({'c_void_p' if depth == 2 else name})"
    of = header.SCALARS[name][2] if name in header.SCALARS else name
    return "POINTER(" * depth + of + ")" * depth


def filled(items: List[str], indent: int = 8) -> str:
    """The items of a list, as many in a line as the linter allows."""
    lines = [""]
    for it in items:
        if len(lines[-1]) + len(it) > 150:
            lines.append("")
        lines[-1] += f" {it},"
    return "".join(f"{' ' * indent}{line[1:]}\n" for line in lines)


def entry(front: str, given: List[str]) -> str:
    """The entry of a function, in more lines if one would be too long."""
    line = f"{front}{', '.join(given)}]),\n"
    return line if len(line) <= 180 else f"{front}\n{filled(given)}    ]),\n"


def structure(name: str, fields: List[str]) -> str:
    return f"\n\nclass {name}(Structure):\n    _fields_ = [\n{filled(fields)}    ]\n"


def bindings(structs: Dict[str, Any], functions: Dict[str, Any]) -> str:
    text = f'"""{header.MADE}"""\n'
    text += "from ctypes import POINTER, Structure, c_bool, c_char_p, c_size_t, c_uint8, c_uint16, c_uint32, c_uint64, c_void_p\n"
    text += "from typing import Any, Dict, List, Tuple\n\n"
    text += "".join(f"{it.name.removeprefix(header.OWN)} = {it.value.rstrip('u')}\n" for it in header.macros())
    for name, fields in structs.items():
        text += structure(name, [f'("{it.name}", {python_type(it.type)})' for it in fields])
    text += "\n\n# Of each function, its result and its parameters.\nFUNCTIONS: Dict[str, Tuple[Any, List[Any]]] = {\n"
    for name, it in functions.items():
        given = [python_type(kind) for _, kind in parameters(it)]
        text += entry(f'    "{name}": ({python_type(it.type)}, [', given)
    return text + "}\n"


def names(code: Number, of: Optional[Enum]) -> str:
    """The names of what an answer with this code has, by their numbers."""
    assert of is not None
    return f"    header.{code.name}: {{\n" + filled([f'header.{number.name}: "{camel(member)}"' for member, number in of.members]) + "    },\n"


def all_names() -> str:
    """The names of arguments and faults, and of codes that the package has no exception for. The library has the names of refusals."""
    text = "# The names of what an answer has, by its code.\nNAMES: Dict[int, Dict[int, str]] = {\n"
    return text + "".join(names(code, of) for code, of in header.codes() if of and code.name != "REFUSED") + "}\n"


def reply(number: Number) -> str:
    fields = number.fields()
    told = [number.sentence()] if number.sentence() else []
    told += ["; ".join(f"{name}: {what}" for name, _, what in fields) + "."] if fields else []
    lines = "".join(f"    {name}: int\n" for name, _, _ in fields)
    document = "\n\n    ".join(told)
    end = "\n    " if len(told) > 1 else ""
    return f'@dataclass(frozen=True)\nclass {header.reply_name(number)}(Reply):\n    """{document}{end}"""\n' + (f"\n{lines}" if lines else "")


def maker(number: Number) -> str:
    given = [letter for _, letter, _ in number.fields()]
    name = header.reply_name(number)
    return name if given == ["a", "b"] else f"lambda a, b: {name}({', '.join(given)})"


def replies() -> str:
    text = "".join(f"{reply(it)}\n\n" for it in header.replies())
    text += "# How a reply is made of the two numbers of an answer, by its number.\nMADE: Dict[int, Callable[[int, int], Reply]] = {\n"
    return text + "".join(f"    header.{it.name}: {maker(it)},\n" for it in header.replies()) + "}\n"


def enum(name: str, document: str, prefix: str) -> str:
    lines: List[str] = []
    for member, number in header.members(prefix):
        told = f"  # {number.comment}" if number.comment else ""
        lines.append(f"    {member.upper()} = header.{number.name}{told}\n")
    return f'class {name}(enum.Enum):\n    """{document}"""\n\n{"".join(lines)}'


def kinds() -> str:
    it = header.enums()["call_kind"]
    lines = "".join(f"    {member.upper()} = header.{number.name}\n" for member, number in it.members)
    return f'class CallKind(enum.IntEnum):\n    """{it.comment}"""\n\n{lines}'


def wrapped(text: str, indent: str) -> str:
    return "\n".join(textwrap.wrap(text, 130, initial_indent=indent, subsequent_indent=indent, break_long_words=False)) + "\n"


def method(call: Call) -> str:
    """A method of the coordinator, of which threads that wait for a call know unless the call is quiet."""
    given = f", {call.number}: int" if call.number else ""
    number = (f", {call.number}" if call.has_moment() else f", _u64({call.number})") if call.number else ""
    how = "_timed" if call.has_moment() else "_replied" if call.is_quiet() else "_moved"
    told = wrapped(f'"""{call.comment}"""', "        ")
    return f'    def {call.name}(self{given}) -> Reply:\n{told}        return self.{how}("{call.name}"{number})\n'


def line(call: Call) -> str:
    given = f"{call.number}: int, " if call.number else ""
    number = ("now, " if call.has_moment() else f"number={call.number}, ") if call.number else ""
    return f"def {call.name}_line({given}term: int = 0) -> str:\n    return _line(header.{call.kind()}, {number}term=term)\n"


def value(call: Call) -> str:
    """A call as a value. That of a fence is in calls.py, since it has no term."""
    field = f"    {call.number}: int\n" if call.number else ""
    return f"@dataclass(frozen=True)\nclass {camel(call.name)}(_OfOneNumber):\n{field}    term: int = 0\n"


def values() -> List[Call]:
    return [it for it in calls.calls() if it.is_plain() or it.is_read]


def table(name: str, found: List[Call]) -> str:
    """What makes the values of calls from a number and the term, by their kinds."""
    maker = [camel(it.name) if it.number else f"lambda _, term: {camel(it.name)}(term)" for it in found]
    lines = "".join(f"    CallKind.{it.name.upper()}: {how},\n" for it, how in zip(found, maker))
    return f"{name}: Dict[int, Callable[[int, int], Call]] = {{\n{lines}}}\n"


def union() -> str:
    """The type of all calls, and which are made of a moment or of a number."""
    names = ", ".join(camel(member) for member, _ in header.enums()["call_kind"].members)
    text = "Call = Union[\n" + wrapped(f"{names},", "    ") + "]\n\n"
    return text + table("OF_A_MOMENT", [it for it in values() if it.has_moment()]) + table("OF_A_NUMBER", [it for it in values() if not it.has_moment()])


def of_store(call: Call) -> str:
    """A call of a list, which without a moment has that of the store's clock."""
    given = (", now: Optional[int] = None" if call.has_moment() else f", {call.number}: int") if call.number else ""
    number = (", now" if call.has_moment() else f", number={call.number}") if call.number else ""
    return f'    @classmethod\n    def {call.name}(cls{given}) -> "Call":\n        return cls(header.{call.kind()}{number})\n'


def store_method(call: Call) -> str:
    given = (", now: Optional[int] = None" if call.has_moment() else f", {call.number}: int") if call.number else ""
    told = wrapped(f'"""{call.comment}"""', "        ")
    return f"    def {call.name}(self{given}) -> Made:\n{told}        return self.call(Call.{call.name}({call.number or ''}))\n"


def reply_names() -> List[str]:
    return sorted(header.reply_name(it) for it in header.replies())


def imports() -> str:
    return "from relkvanu.replies import (\n" + wrapped(", ".join(reply_names()) + ",", "    ") + ")\n"


def exports() -> str:
    return "__all__ += [\n" + wrapped(", ".join(f'"{it}"' for it in reply_names()) + ",", "    ") + "]\n"


def words() -> str:
    """The first words of the lines of calls that change a coordinator."""
    found = [member for member, _ in header.enums()["call_kind"].members if member not in calls.READS]
    return f'_CALLS = "{"|".join(found)}"\n'


def generated() -> Dict[str, Dict[str, str]]:
    """What is made, by file and place."""
    return {
        "__init__.py": {"the import of replies": imports(), "the names of replies": exports()},
        "coordinator.py": {"the names": all_names(), "the calls of one number": "\n".join(method(it) for it in calls.plain())},
        "lines.py": {"the lines of calls of one number": "\n\n".join(line(it) for it in calls.plain())},
        "jobs.py": {"the calls of one number": "\n".join(of_store(it) for it in calls.plain())},
        "store.py": {"the calls of one number of a store": "\n".join(store_method(it) for it in calls.stored())},
        "trace.py": {"the first words of calls": words()},
        "replies.py": {"the replies": replies()},
        "reads.py": {"the modes": enum("Mode", "What the job is doing.", "mode_"), "the standings": enum("Standing", "What a number is.", "stands_")},
        "calls.py": {
            "the kinds": kinds(),
            "the calls of one number": "\n\n".join(value(it) for it in values()),
            "what a call is": union(),
        },
    }
