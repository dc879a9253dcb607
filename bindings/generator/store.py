"""The functions, structs and numbers of include/relkvanu_store.h and include/relkvanu_storage.h in Python and Rust, and the store's numbers in
Java. C++, Go and the C of Java read the headers themselves."""
import re
from typing import Any, Dict, Iterable, List, NamedTuple, Tuple

from pycparser import c_ast

from generator import header
from generator.code_python import entry, filled, python_type, structure
from generator.code_rust import DERIVED, UNKNOWN, formatted, wrapped
from generator.header import Number, camel

STORE, STORAGE = (header.TOP / "include" / name for name in ("relkvanu_store.h", "relkvanu_storage.h"))
MADE = "What include/{} says, made from it by bindings/generate: change the header, and run that."
# Numbers that are lengths; what became of a file; all others but statuses are flags and the like.
LENGTHS = {"MOST_STEPS", "MOST_CALLS", "MESSAGE", "PAGE", "MOST_AFFIX", "MOST_PAYLOAD", "MOST_REASON", "MOST_ENDED", "MOST_HISTORY", "MOST_VERTICES"}
OUTCOMES = {"UNDELETED", "DELETED", "MISSING"}
# A struct that is no longer than this has all that can be derived.
MOST_DERIVED = 32


class Declarations(NamedTuple):
    """What one header declares: its numbers, structs, functions, types of functions, and structs that nobody looks into."""

    numbers: List[Number]
    structs: Dict[str, Any]
    functions: Dict[str, Any]
    callbacks: Dict[str, Any]
    opaque: List[str]


def declarations_of(path: Any, below: Iterable[Any]) -> Declarations:
    tree = header.parsed(header.preprocessed("-P", of=[*below, path]))
    own = path.read_text()
    found = Declarations(header.macros(path), {}, {}, {}, [])
    for it in tree.ext:
        if not re.search(rf"\b{getattr(it, 'name', None)}\b", own):
            continue
        if isinstance(it, c_ast.Decl) and isinstance(it.type, c_ast.FuncDecl) and it.name.startswith(f"{path.stem}_"):
            found.functions[it.name] = it.type
        elif isinstance(it, c_ast.Typedef) and is_function(it.type) and f"(*{it.name})(" in own:
            found.callbacks[it.name] = it.type.type
        elif isinstance(it, c_ast.Typedef) and isinstance(it.type.type, c_ast.Struct):
            if it.type.type.decls is None and f"typedef struct {it.name} {it.name};" in own:
                found.opaque.append(it.name)
            elif f"}} {it.name};" in own:
                found.structs[it.name] = it.type.type.decls
    return found


def of_store() -> Declarations:
    return declarations_of(STORE, [header.HEADER, STORAGE])


def of_storage() -> Declarations:
    return declarations_of(STORAGE, [])


def is_function(node: Any) -> bool:
    return isinstance(node, c_ast.PtrDecl) and isinstance(node.type, c_ast.FuncDecl)


def dimension(node: Any) -> str:
    return str(node.dim.value)


def statuses(path: Any) -> List[str]:
    """The names of the statuses: those of the first list of numbers."""
    (_, below) = path.read_text().split("/* Status.", 1)
    return re.findall(r"^#define (RELKVANU_\w+)", below.partition("\n\n")[0], re.M)


def python_parameters(function: Any, opaque: List[str]) -> List[str]:
    kinds = (it.type for it in function.args.params if header.pointed_or(it.type) != ("void", 0))
    return [f"POINTER({python_type(it.type, opaque)})" if isinstance(it, c_ast.ArrayDecl) else python_type(it, opaque) for it in kinds]


def takes_storage(function: Any) -> bool:
    return any(header.pointed_or(it.type)[0] == "relkvanu_storage" for it in function.args.params)


def python_number(it: Number) -> str:
    return it.value.rstrip("u") if it.value != "UINT64_MAX" else "(1 << 64) - 1"


def python() -> str:
    """The store in Python, which has storages of its own."""
    it, prefix = of_store(), "RELKVANU_STORE_"
    text = f'"""{MADE.format(STORE.name)}"""\n'
    text += "from ctypes import CFUNCTYPE, POINTER, Structure, c_bool, c_char, c_char_p, c_int, c_int64, c_size_t, c_uint8, c_uint16, c_uint32, c_uint64, c_void_p\n"
    text += "from typing import Any, Dict, List, Tuple\n\nfrom relkvanu.header import relkvanu, relkvanu_answer, relkvanu_call, relkvanu_settings\n\n"
    text += "".join(f"{number.name.removeprefix(prefix)} = {python_number(number)}\n" for number in it.numbers)
    names = [name.removeprefix(prefix) for name in statuses(STORE)]
    text += "\n# The names of the statuses.\nSTATUSES: Dict[int, str] = {\n" + filled([f'{name}: "{camel(name)}"' for name in names], 4) + "}\n"
    for name, fields in it.structs.items():
        text += structure(name, [f'("{field.name}", {python_type(field.type, it.opaque)})' for field in fields])
    text += "\n\n"
    for name, function in it.callbacks.items():
        text += f"{name} = CFUNCTYPE({', '.join([python_type(function.type, it.opaque), *python_parameters(function, it.opaque)])})\n"
    text += "\n# Of each function, its result and its parameters. A store is a pointer that nobody looks into.\nFUNCTIONS: Dict[str, Tuple[Any, List[Any]]] = {\n"
    for name, function in it.functions.items():
        if not takes_storage(function):
            text += entry(f'    "{name}": ({python_type(function.type, it.opaque)}, [', python_parameters(function, it.opaque))
    return without_unused(text + "}\n")


def without_unused(text: str) -> str:
    """Imports nothing that the text does not use."""
    def used(line: "re.Match[str]") -> str:
        rest = text.replace(line.group(0), "")
        return line.group(1) + ", ".join(it for it in line.group(2).split(", ") if re.search(rf"\b{it}\b", rest)) + "\n"
    return re.sub(r"^(from (?:ctypes|relkvanu\.header) import )(.*)\n", used, text, flags=re.M)


def rust_type(node: Any) -> str:
    if isinstance(node, c_ast.ArrayDecl):
        return f"[{rust_type(node.type)}; {dimension(node)}]"
    if is_function(node):
        return f"Option<{rust_signature(node.type)}>"
    name, depth, is_const = header.pointed(node)
    of = header.SCALARS[name][1] if name in header.SCALARS else name
    return "*mut " * max(depth - 1, 0) + ("*const " if is_const and depth else "*mut " if depth else "") + of


def rust_parameters(function: Any) -> str:
    return ", ".join(f"{it.name}: {rust_parameter(it.type)}" for it in function.args.params if header.pointed_or(it.type) != ("void", 0))


def rust_parameter(node: Any) -> str:
    if isinstance(node, c_ast.ArrayDecl):
        return ("*const " if "const" in node.type.quals else "*mut ") + rust_type(node.type)
    return rust_type(node)


def rust_result(function: Any) -> str:
    return "" if header.pointed(function.type)[:2] == ("void", 0) else f" -> {rust_type(function.type)}"


def rust_signature(function: Any) -> str:
    return f"unsafe extern \"C\" fn({rust_parameters(function)}){rust_result(function)}"


def rust_number(it: Number, of_status: List[str]) -> str:
    name = re.sub(r"^RELKVANU_STOR(E|AGE)_", "", it.name)
    kind = "u64" if it.value == "UINT64_MAX" else "c_int" if it.name in of_status else "usize" if name in LENGTHS else "u8" if name in OUTCOMES else "u32"
    return f"pub const {it.name}: {kind} = {'u64::MAX' if it.value == 'UINT64_MAX' else it.value.rstrip('u')};\n"


def is_plain(fields: List[Any]) -> bool:
    """Whether there are numbers alone, and few of them in a list."""
    kinds = [(it.type.type if isinstance(it.type, c_ast.ArrayDecl) else it.type, it.type) for it in fields]
    return all(not is_function(of) and header.pointed(of)[0] in header.SCALARS and header.pointed(of)[1] == 0 for of, _ in kinds) and \
        all(int(dimension(it)) <= MOST_DERIVED for _, it in kinds if isinstance(it, c_ast.ArrayDecl))


def rust_struct(name: str, fields: List[Any]) -> str:
    derived = "Clone, Copy, Debug, Default, PartialEq, Eq" if is_plain(fields) else "Clone, Copy, Debug"
    lines = "".join(f"    pub {it.name}: {rust_type(it.type)},\n" for it in fields)
    return f"#[repr(C)]\n#[derive({derived})]\npub struct {name} {{\n{lines}}}\n\n"


def rust(path: Any, it: Declarations, uses: str) -> str:
    of_status = statuses(path)
    text = f"// {MADE.format(path.name)}\n{uses}\n"
    text += "".join(rust_number(number, of_status) for number in it.numbers) + "\n"
    text += "".join(f"/// Nobody looks into it.\n#[repr(C)]\npub struct {name} {{\n    _private: [u8; 0],\n}}\n\n" for name in it.opaque)
    text += "".join(rust_struct(name, fields) for name, fields in it.structs.items())
    text += "".join(f"pub type {name} = {rust_signature(function)};\n\n" for name, function in it.callbacks.items())
    declared = "".join(f"    pub fn {name}({rust_parameters(function)}){rust_result(function)};\n" for name, function in it.functions.items())
    return formatted(f"{text}extern \"C\" {{\n{declared}}}\n")


# What Rust says of some of the statuses.
SAID = {
    "JOB_STOPPED": "Of `await_tick`: the job is stopped, so no tick is due until it begins again.",
    "NOT_STOPPED": "Of `await_tick`: a stop of the job has failed, and its phase says why.",
    "FILE_LOST": "Of `load`, and of a restore to a record by its number: a file of the record is not in the storage. Nothing has changed.",
}


def rust_kinds() -> str:
    names = [it.removeprefix("RELKVANU_STORE_") for it in statuses(STORE)[1:]]
    return "".join((f"    /// {SAID[it]}\n" if it in SAID else "") + f"    {camel(it)} = RELKVANU_STORE_{it},\n" for it in names)


def rust_enum(name: str, comment: str, prefix: str, names: str = r"\w+", attribute: str = "") -> str:
    """An enum of the numbers of the store with these names behind the prefix, with Unknown for each other number."""
    found = [(it.name, it.comment) for it in of_store().numbers if re.fullmatch(prefix + names, it.name)]
    members = [(camel(number.removeprefix(prefix)), number, f"    /// {told[0].upper()}{told[1:]}.\n" if told else "") for number, told in found]
    text = f"/// {comment}\n{DERIVED}{attribute}pub enum {name} {{\n" + "".join(f"{told}    {member},\n" for member, _, told in members) + UNKNOWN
    text += f"}}\n\nimpl {name} {{\n    fn of(number: u32) -> {name} {{\n        match number {{\n"
    text += "".join(f"            store::{number} => {name}::{member},\n" for member, number, _ in members)
    return text + f"            other => {name}::Unknown(other),\n        }}\n    }}\n}}\n"


class Making(NamedTuple):
    """A function that makes a job or a folder of manifests: its name, what the header says of it, its texts and numbers, and the struct in which it tells what."""

    name: str
    comment: str
    given: List[Tuple[str, bool]]
    told: str


def makings() -> List[Making]:
    found, comments = [], header.paragraphs(STORE)
    for name, it in of_store().functions.items():
        *given, (_, last) = header.parameters(it)
        told = header.pointed(last)[0].removeprefix("relkvanu_store_")
        if told in ("recovered", "carried") and name != "relkvanu_store_recover_listed":
            comment = " ".join(part for part in comments[name] if part is comments[name][0] or part.startswith("READ")).replace("relkvanu_store_", "")
            found.append(Making(name.removeprefix("relkvanu_store_"), comment, [(word, header.pointed(kind)[0] == "char") for word, kind in given], told))
    return found


def rust_making(it: Making) -> str:
    texts = [word for word, is_text in it.given if is_text]
    given = ", ".join(f"{word}: {'&Path' if is_text else 'u64'}" for word, is_text in it.given)
    passed = ", ".join(f"{word}.as_ptr()" if is_text else word for word, is_text in it.given)
    text = f"{wrapped(it.comment, '')}pub fn {it.name}({given}) -> Result<{camel(it.told)}, StoreError> {{\n"
    text += f"    let ({', '.join(texts)}) = ({', '.join(f'c_path({word})?' for word in texts)});\n    {it.told}(|told| {{\n"
    return text + f"        // SAFETY: all that is passed outlives the call.\n        unsafe {{ sys::relkvanu_store_{it.name}({passed}, told) }}\n    }})\n}}\n"


# Structs of the store that the crate has too: what each is there, and its fields that have another name or type, or none.
MIRRORED = {
    "record": ("A record of a storage folder, as its manifest says it.", {"status": "damage: Option<StoreErrorKind> = damage_of(it)", "unknown": "", "changed": ""}),
    "carried": ("The record of which [`export`] has made a folder.", {"message": ""}),
    "recovered": ("What a job was made of.", {"message": "set_aside: String = text(&it.message)"}),
    "past": ("A record of the history. The times of acknowledgements are milliseconds since its trigger, by the store's clock, of those since the opening.", {
        "kind": "kind: Kind = kind_of(it.kind).unwrap_or(Kind::Unknown(0))", "outcome": "ending: Ending = Ending::of(it.outcome)",
        "reason": "reason: String = text(&it.reason)"}),
}


def rust_mirror(name: str) -> str:
    """A struct of the crate, and what makes it of that of the store."""
    struct, (said, own) = f"relkvanu_store_{name}", MIRRORED[name]
    (body,) = re.findall(rf"typedef struct {{([^{{}}]*)}} {struct};", STORE.read_text())
    words = re.sub(r"RELKVANU_STORE_(\w+)", lambda it: camel(it[1].lower()), body).replace("relkvanu_store_", "")
    comments = dict(re.findall(r"(\w+)[^;\w]*(?:, [\w, ]+)?; +/\* (.*?) \*/", words))
    fields = [(it.name, own.get(it.name, f"{it.name}: {rust_type(it.type)} = it.{it.name}")) for it in of_store().structs[struct] if it.name != "reserved"]
    told = [(comments.get(field, ""), *re.split(r" = ", how, maxsplit=1)) for field, how in fields if how]
    derived = "Clone, Debug, PartialEq, Eq" if any("String" in declared for _, declared, _ in told) else "Clone, Copy, Debug, PartialEq, Eq"
    text = f"/// {said}\n#[derive({derived})]\npub struct {camel(name)} {{\n"
    text += "".join((f"    /// {it[0].upper()}{it[1:]}.\n" if it else "") + f"    pub {declared},\n" for it, declared, _ in told)
    text += f"}}\n\nimpl {camel(name)} {{\n    fn of(it: &sys::{struct}) -> {camel(name)} {{\n        {camel(name)} {{\n"
    return text + "".join(f"            {declared.partition(':')[0]}: {made},\n" for _, declared, made in told) + "        }\n    }\n}\n"


def in_crate() -> Dict[str, Dict[str, str]]:
    """What is made in the crate, by file and place."""
    phases = [rust_enum("Phase", "The phase of a job.", "RELKVANU_STORE_PHASE_"), rust_enum("StopFailed", "Why a stop has failed.", "RELKVANU_STORE_STOP_")]
    ending = rust_enum("Ending", "What became of a record.", "RELKVANU_STORE_", "(COMPLETED|DECLINED|EXPIRED|DROPPED)", "#[non_exhaustive]\n")
    made = "\n".join(rust_making(it) for it in makings())
    mirrors = "\n".join(rust_mirror(it) for it in ("record", "carried", "recovered"))
    return {
        "records.rs": {"the records": mirrors, "what is made of manifests": made}, "error.rs": {"the kinds of errors": rust_kinds()},
        "phase.rs": {"the phases": "\n".join(phases)}, "whole.rs": {"the endings": ending, "the past": rust_mirror("past")},
    }


def in_rust() -> Dict[str, str]:
    uses = "use crate::storage::{relkvanu_storage};\nuse crate::{relkvanu, relkvanu_answer, relkvanu_call, relkvanu_settings};\nuse std::ffi::{c_char, c_int, c_void};\n"
    return {"store.rs": rust(STORE, of_store(), uses), "storage.rs": rust(STORAGE, of_storage(), "use std::ffi::{c_char, c_int, c_void};\n")}
