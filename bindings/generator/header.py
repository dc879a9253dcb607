"""What include/relkvanu.h says: its numbers, texts, structs, functions and enums. Debian's python3-pycparser reads it, and cc its macros."""
import functools
import pathlib
import re
import subprocess
from typing import Any, Dict, List, NamedTuple, Optional, Sequence, Tuple

from pycparser import c_ast, c_parser

TOP = pathlib.Path(__file__).resolve().parent.parent.parent
HEADER = TOP / "include/relkvanu.h"
MADE = "What include/relkvanu.h says, made from it by bindings/generate: change the header, and run that."
OWN = "RELKVANU_"

# A type of the header: what it is in C, in Rust and for ctypes.
SCALARS = {
    "void": ("void", "c_void", "None"),
    "bool": ("_Bool", "bool", "c_bool"),
    "char": ("char", "c_char", "c_char"),
    "uint8_t": ("unsigned char", "u8", "c_uint8"),
    "uint16_t": ("unsigned short", "u16", "c_uint16"),
    "uint32_t": ("unsigned int", "u32", "c_uint32"),
    "uint64_t": ("unsigned long", "u64", "c_uint64"),
    "int": ("int", "c_int", "c_int"),
    "int64_t": ("long", "i64", "c_int64"),
    "size_t": ("unsigned long", "usize", "c_size_t"),
}
BUILT_IN = {"void", "char", "int"}

# The comment of a number: what a and b are, a sentence, and the text of the answer in quotes.
COMMENT = re.compile(r'(?:a: (?P<a>[^,.;"]+)(?:, b: (?P<b>[^.;"]+))?)?(?P<rest>.*?)(?:"(?P<form>[^"]*)")?$', re.S)

# The names of the fields of replies, by what the header says of a and b. Any other one has the first word of that.
FIELDS = {
    "expired records": "expired",
    "number": "id",
    "subtasks missing": "missing",
    "records dropped": "dropped",
    "files released": "released",
    "fresh files that this call handed out for deletion": "handed_out",
}


class Number(NamedTuple):
    """A number of the header: its name without RELKVANU_, what its comment says, what a and b are, and the text of an answer."""

    name: str
    value: str
    comment: str
    a: Optional[str]
    b: Optional[str]
    form: Optional[str]

    def fields(self) -> List[Tuple[str, str, str]]:
        """The fields of an answer: name, a or b, and what it is. The number of a record that is named second comes first."""
        found = [(FIELDS.get(what, re.findall(r"\w+", what)[0]), letter, what) for letter, what in (("a", self.a), ("b", self.b)) if what]
        return found[::-1] if self.name.startswith("RESTORED_") else found

    def sentence(self) -> str:
        """What the comment says beside a and b."""
        told = self.comment[len(self.leading()):].lstrip("., ;")
        return told[:1].upper() + told[1:] + ("" if told.endswith(".") or not told else ".")

    def leading(self) -> str:
        return (f"a: {self.a}" if self.a else "") + (f", b: {self.b}" if self.b else "")


class Enum(NamedTuple):
    """An enum of the header: its name without relkvanu_, what its comment says, and of each member its name and its number."""

    name: str
    comment: str
    members: List[Tuple[str, Number]]


def preprocessed(*flags: str, of: Sequence[pathlib.Path] = (HEADER,)) -> str:
    """Returns what cc makes of the headers without those that they include."""
    return expanded(re.sub(r"^#include .*$", "", "\n".join(it.read_text() for it in of), flags=re.M), flags)


@functools.lru_cache(maxsize=None)
def expanded(text: str, flags: Sequence[str]) -> str:
    """The same of a text. What is generated asks for the same some hundred times."""
    told = subprocess.run(["cc", "-E", "-DRELKVANU_NODISCARD=", *flags, "-x", "c", "-"], input=text, capture_output=True, text=True, check=True)
    return told.stdout


def number_of(name: str, value: str, comment: str) -> Number:
    found = COMMENT.match(comment)
    assert found is not None
    told = comment[: found.end("rest")].strip()
    return Number(name, value, told.removesuffix(".") if found["form"] else told, found["a"], found["b"], found["form"])


@functools.lru_cache(maxsize=None)
def macros(path: pathlib.Path = HEADER) -> List[Number]:
    """Returns a header's numbers and texts, in its order. The names have RELKVANU_ here."""
    values = dict(re.findall(r"^#define (RELKVANU_\w+) (.+)$", preprocessed("-dM", of=[path]), re.M))
    lines = re.findall(r"^#define (RELKVANU_\w+)(?: ([^/\n]*?))?(?: */\* (.*?)(?: \*/)?)?$", path.read_text(), re.M)
    found = [number_of(name, values.get(name, ""), comment) for name, _, comment in lines]
    return [it for it in found if re.fullmatch(r'\d+u?|".*"|UINT64_MAX', it.value)]


def numbers() -> Dict[str, Number]:
    """Returns the numbers by their names without RELKVANU_."""
    return {it.name.removeprefix(OWN): it._replace(name=it.name.removeprefix(OWN)) for it in macros()}


@functools.lru_cache(maxsize=None)
def enums() -> Dict[str, Enum]:
    """Returns the enums, by name. The name of a member is the constant's after that of the enum."""
    found, known = {}, numbers()
    for comment, name, body in re.findall(r"(?:/\*((?:(?!\*/).)*)\*/\n)?enum relkvanu_(\w+) \{(.*?)\};", HEADER.read_text(), re.S):
        pairs = re.findall(rf"relkvanu_{name}_(\w+) = RELKVANU_(\w+)", body)
        found[name] = Enum(name, plain(comment) or f"{words(name).capitalize()}.", [(member, known[macro]) for member, macro in pairs])
    return found


def settings() -> List[Tuple[str, bool, str]]:
    """Returns of each field of the settings its name, whether it is yes or no, and what its comment says."""
    (body,) = re.findall(r"typedef struct \{([^}]*)\} relkvanu_settings;", HEADER.read_text())
    return [(name, kind == "bool", told) for kind, name, told in re.findall(r"(\w+) (\w+); +/\* (.*?) \*/", body)]


def section(condition: str) -> List[str]:
    """Returns the names of the numbers below the comment `what, if` this."""
    (_, below) = HEADER.read_text().split(f"/* what, if {condition}", 1)
    return re.findall(r"^#define RELKVANU_(\w+)", below.partition("\n\n")[0], re.M)


def told_by(code: str) -> Optional[Enum]:
    """Returns the enum of what an answer with this code has, or None if it has none."""
    if f"/* what, if code is RELKVANU_{code}" not in HEADER.read_text():
        return None
    first = section(f"code is RELKVANU_{code}")[0]
    (found,) = [it for it in enums().values() if first in [number.name for _, number in it.members]]
    return found


def codes() -> List[Tuple[Number, Optional[Enum]]]:
    """Returns the codes but that of a call that was made, each with the enum of what such an answer has."""
    return [(number, told_by(number.name)) for _, number in enums()["code"].members if number.name != "DONE"]


def replies() -> List[Number]:
    """Returns the replies to calls that write to no buffer."""
    known = numbers()
    found = [known[name] for name in section("code is RELKVANU_DONE")]
    return [it for it in found if it.name != "OPENED" and "at the start of the buffer" not in it.comment]


def members(prefix: str) -> List[Tuple[str, Number]]:
    """Returns the replies whose names begin so, with the rest of their names."""
    return [(member.removeprefix(prefix), number) for member, number in enums()["reply"].members if member.startswith(prefix)]


def form_of(code: Number, enum: Optional[Enum], member: str, number: Number) -> str:
    """The text of an answer, with {a} and {b} where its numbers stand."""
    if number.form is not None:
        return number.form
    places = "".join(f" {{{letter}}}" for letter, what in (("a", number.a), ("b", number.b)) if what)
    if enum is None or enum.name == "reply":
        return words(member) + places
    return (code.form or f"{words(code.name)} {{name}}").replace("{name}", camel(member)) + places


def words(name: str) -> str:
    return name.lower().replace("_", " ")


def camel(name: str) -> str:
    return "".join(it.capitalize() for it in name.split("_"))


def reply_name(number: Number) -> str:
    """The name of a reply in the packages: that of the header without the call, if it is a tick."""
    return camel(number.name.removeprefix("TICK_"))


def plain(comment: str) -> str:
    return " ".join(re.sub(r"^ *\*", "", comment, flags=re.M).split())


def comments() -> Dict[str, str]:
    """Returns the comment before each function, as one line of text."""
    return {name: " ".join(it) for name, it in paragraphs().items()}


def paragraphs(path: pathlib.Path = HEADER) -> Dict[str, List[str]]:
    """Returns the paragraphs of the comment before each function of a header, each as one line of text."""
    found = re.findall(r"/\*((?:(?!\*/).)*)\*/\n[^;/{}]*?\b(relkvanu_\w+)\([^;{]*\);", path.read_text(), re.S)
    return {name: [plain(it) for it in re.split(r"\n \*\n", text)] for text, name in found}


def reads() -> List[str]:
    """Returns the functions that return an answer which a program may drop: those that change nothing."""
    return re.findall(r"^relkvanu_answer (relkvanu_\w+)\(", HEADER.read_text(), re.M)


@functools.lru_cache(maxsize=None)
def parsed(text: str) -> Any:
    """Returns the tree of what cc has made of headers, which nobody changes."""
    known = "".join(f"typedef {c} {name};\n" for name, (c, _, _) in SCALARS.items() if name not in BUILT_IN)
    return c_parser.CParser().parse(known + text)


def declarations() -> Tuple[Dict[str, Any], Dict[str, Any]]:
    """Returns the structs and the functions that the header declares."""
    tree = parsed(preprocessed("-P"))
    structs, functions = {}, {}
    for it in tree.ext:
        if isinstance(it, c_ast.Typedef) and isinstance(it.type.type, c_ast.Struct):
            structs[it.name] = it.type.type.decls
        elif isinstance(it, c_ast.Decl) and isinstance(it.type, c_ast.FuncDecl):
            functions[it.name] = it.type
    return structs, functions


def pointed(node: Any) -> Tuple[str, int, bool]:
    """Returns the name of a type, how many pointers lead to it, and whether it is constant."""
    depth = 0
    while isinstance(node, c_ast.PtrDecl):
        node, depth = node.type, depth + 1
    return " ".join(node.type.names), depth, "const" in node.quals


def pointed_or(node: Any) -> Tuple[str, int]:
    """Returns the name of a type and how many pointers lead to it, and the same of what a list has."""
    name, depth, _ = pointed(node.type if isinstance(node, c_ast.ArrayDecl) else node)
    return name, depth


def parameters(function: Any) -> List[Tuple[str, Any]]:
    return [(it.name, it.type) for it in function.args.params if pointed(it.type)[:2] != ("void", 0)]
