"""The bindings and the kinds, replies, refusals and faults in Rust."""
import subprocess
import textwrap
from typing import Any, Dict, List, Optional, Tuple

from generator import calls, header
from generator.calls import Call, Function
from generator.header import Enum, Number, camel, parameters, pointed

DERIVED = "#[derive(Clone, Copy, Debug, PartialEq, Eq, Hash)]\n"
UNKNOWN = "    /// A number that this crate does not know: the library is of another version.\n    Unknown(u32),\n"

# Faults whose names and fields are not those of the header, and the sentence of each that says more than the header.
FAULTS = {
    "REFUSED": ("Refused(Refusal)", "The call was refused."),
    "NO_MEMORY": ("Memory", "Memory ran out. Make the same call again. If the log has its line already, make it before any other logged call."),
    "CLOSED": ("Closed", "The coordinator is closed."),
    "TOO_SHORT": ("TooShort { places: u64 }", "A `take` line would fetch this many files, and the buffer has fewer places."),
    "BAD_LINE": ("BadLine(LineFault)", "A line of a script can't be read, or the line of a call would be too long."),
}
# Replies with one number that has no name.
TUPLES = ("SAVEPOINT_TRIGGERED", "DELETED", "UNDELETED", "RESERVED")
# Replies to calls with names, as a log has them (docs/LOGS.md): how many names a task wanted is in the line of its call.
LOGGED = {
    "FORFEITED": 'the names are given up. "forfeited"',
    "NAMED": 'the job has names, and its first term runs. "term 1"',
    "RESERVED": 'a: name. From this name on as many are reserved as the call wanted. "reserved {a}"',
}
RESTORED = "RESTORED_"
SAFE = "the handle is as the library last left it, and `&mut self` keeps other calls away."


def rust_type(node: Any) -> str:
    name, depth, is_const = pointed(node)
    return ("*const " if is_const else "*mut ") * depth + (header.SCALARS[name][1] if name in header.SCALARS else name)


def rust_macro(it: Number) -> str:
    told = f"/// {it.comment}\n" if it.comment else ""
    value = f"&str = {it.value}" if it.value.startswith('"') else f"u32 = {it.value.rstrip('u')}"
    return told + f"pub const {it.name}: {value};\n"


def rust_function(name: str, function: Any, comment: Optional[str]) -> str:
    told = f"    /// {comment}\n" if comment else ""
    given = "".join(f"        {it}: {rust_type(kind)},\n" for it, kind in parameters(function))
    of = pointed(function.type)
    result = "" if of[:2] == ("void", 0) else f" -> {rust_type(function.type)}"
    return f"{told}    pub fn {name}(\n{given}    ){result};\n"


def formatted(text: str) -> str:
    command = ["rustfmt", "--edition", "2021", "--config-path", str(header.TOP / "rustfmt.toml")]
    return subprocess.run(command, input=text, capture_output=True, text=True, check=True).stdout


def bindings(structs: Dict[str, Any], functions: Dict[str, Any]) -> str:
    told = header.comments()
    text = "// What `include/relkvanu.h` says, made from it by `bindings/generate`: change the header, and run that.\n"
    text += "use std::ffi::{c_char, c_void};\n\n"
    text += "".join(rust_macro(it) for it in header.macros()) + "\n"
    for name, fields in structs.items():
        lines = "".join(f"    pub {it.name}: {rust_type(it.type)},\n" for it in fields)
        text += f"#[repr(C)]\n#[derive(Clone, Copy, Debug)]\npub struct {name} {{\n{lines}}}\n\n"
    return formatted(text + 'extern "C" {\n' + "\n".join(rust_function(name, it, told.get(name)) for name, it in functions.items()) + "}\n")


def document(sentence: str, indent: str = "    ") -> str:
    return f"{indent}/// {sentence}\n" if sentence else ""


def enum(name: str, comment: str, members: List[Tuple[str, Number]]) -> str:
    """An enum with Unknown for each other number. Those with a number of their own have it in the answer's a."""
    has_more = any(number.a for _, number in members)
    given, what = ("told: sys::relkvanu_answer", "told.what") if has_more else ("what: u32", "what")
    text = f"{document(comment, '')}{DERIVED}#[non_exhaustive]\npub enum {name} {{\n"
    text += "".join(document(it.sentence()) + f"    {camel(member)}{'(u64)' if it.a else ''},\n" for member, it in members) + UNKNOWN
    text += f"}}\n\nimpl {name} {{\n    pub(crate) fn of({given}) -> {name} {{\n        match {what} {{\n"
    text += "".join(f"            sys::{header.OWN}{it.name} => {name}::{camel(member)}{'(told.a)' if it.a else ''},\n" for member, it in members)
    text += f"            other => {name}::Unknown(other),\n        }}\n    }}\n\n"
    text += "    /// The number in the header.\n    pub fn number(&self) -> u32 {\n        match self {\n"
    text += "".join(f"            {name}::{camel(member)}{'(_)' if it.a else ''} => sys::{header.OWN}{it.name},\n" for member, it in members)
    text += f"            {name}::Unknown(what) => *what,\n        }}\n    }}\n"
    return text + (of_a(name, members) if has_more else "") + "}\n"


def of_a(name: str, members: List[Tuple[str, Number]]) -> str:
    """The number of a refusal."""
    having = " | ".join(f"{name}::{camel(member)}(of)" for member, it in members if it.a)
    (field,) = {it.fields()[0][0] for _, it in members if it.a}
    text = f"\n    /// The {field} that it names, if there is one.\n    pub fn {field}(&self) -> Option<u64> {{\n"
    return text + f"        match self {{\n            {having} => Some(*of),\n            _ => None,\n        }}\n    }}\n"


def fault_of(code: Number, of: Optional[Enum]) -> List[Tuple[str, str, str, str]]:
    """The faults of a code: declaration, sentence, pattern and expression."""
    pattern = f"sys::{header.OWN}{code.name}"
    if code.name == "BAD_ARGUMENT" and of is not None:
        return [(camel(member), it.sentence(), f"({pattern}, sys::{header.OWN}{it.name})", f"Fault::{camel(member)}") for member, it in of.members]
    kind = camel(of.name) if of else ""
    declared, sentence = FAULTS.get(code.name, (camel(code.name) + (f"({kind})" if kind else ""), code.sentence()))
    made = declared.replace(f"({kind})", f"({kind}::of({'told' if of and any(it.a for _, it in of.members) else 'told.what'}))")
    return [(declared, sentence, f"({pattern}, _)", "Fault::" + made.replace("u64", "told.a"))]


def faults() -> str:
    found = [it for code, of in header.codes() for it in fault_of(code, of)]
    text = "/// Why a call has changed nothing. After [`Unknown`](Fault::Unknown) alone it may have been made.\n"
    text += f"{DERIVED}#[non_exhaustive]\npub enum Fault {{\n" + "".join(document(sentence) + f"    {declared},\n" for declared, sentence, _, _ in found)
    text += "    /// The library that is linked has this version, which does not fit the crate's.\n    OtherLibrary { library: &'static str },\n"
    text += "    /// The library gave an answer that this crate does not know, so it is of another version.\n    Unknown { code: u32, what: u32 },\n}\n\n"
    text += "/// The fault of an answer to a call that was not made.\nfn fault_of(told: sys::relkvanu_answer) -> Fault {\n    match (told.code, told.what) {\n"
    return text + "".join(f"        {pattern} => {made},\n" for _, _, pattern, made in found) + "        _ => Fault::unknown(told),\n    }\n}\n"


class Reply:
    """A reply to a call, in the enum Answer."""

    def __init__(self, number: Number) -> None:
        self.number, self.what = number, f"sys::{header.OWN}{number.name}"
        self.name, self.fields = header.reply_name(number), number.fields()

    def declared(self) -> str:
        if self.number.name in TUPLES:
            return f"{self.name}(u64)"
        return self.name + (" { " + ", ".join(f"{name}: u64" for name, _, _ in self.fields) + " }" if self.fields else "")

    def of(self, how: str) -> str:
        """The answer as an expression or a pattern, in which `how` gives each field."""
        if self.number.name.startswith(RESTORED):
            id = [f"({letter})" for name, letter, _ in self.fields if name == "id"]
            return f"Restored {{ from: Choice::{camel(self.number.name.removeprefix(RESTORED))}{''.join(id)}, released: a }}"
        if self.number.name in TUPLES:
            return f"{self.name}(a)"
        return self.name + (" { " + ", ".join(how.format(name=name, letter=letter) for name, letter, _ in self.fields) + " }" if self.fields else "")

    def numbers(self) -> str:
        given = {letter for _, letter, _ in self.fields}
        return f"({self.what}, {'a' if 'a' in given else '0'}, {'b' if 'b' in given else '0'})"


def answers() -> str:
    logged = [header.number_of(name, header.numbers()[name].value, comment) for name, comment in LOGGED.items()]
    found = [Reply(it) for it in header.replies() + logged]
    plain = [it for it in found if not it.number.name.startswith(RESTORED)]
    text = f"/// The answer to a call that was made.\n{DERIVED}#[non_exhaustive]\npub enum Answer {{\n"
    text += "".join(document(it.number.sentence()) + f"    {it.declared()},\n" for it in plain)
    text += "    /// The job begins again from this record.\n    Restored { from: Choice, released: u64 },\n}\n\n"
    text += "/// The answer to a call that was made and that writes to no buffer.\n"
    text += "pub(crate) fn answer(told: sys::relkvanu_answer) -> Result<Answer, Fault> {\n    let sys::relkvanu_answer { what, a, b, .. } = told;\n"
    text += "    Ok(match what {\n" + "".join(f"        {it.what} => Answer::{it.of('{name}: {letter}')},\n" for it in found)
    text += "        _ => return Err(Fault::unknown(told)),\n    })\n}\n\n"
    text += "/// The numbers of an answer: what it is, and a and b.\npub(crate) fn numbers_of(answer: &Answer) -> (u32, u64, u64) {\n    match *answer {\n"
    text += "".join(f"        Answer::{it.of('{name}: {letter}')} => {it.numbers()},\n" for it in found)
    text += "        Answer::Restored { from: Choice::Unknown(what), released } => (what, released, 0),\n    }\n}\n\n"
    return text


def line_faults() -> str:
    it = header.enums()["line_fault"]
    return enum("LineFault", it.comment, it.members)


def refusals() -> str:
    """The refusals, and the enums of codes that have no place of their own."""
    placed = ("BAD_ARGUMENT", "BAD_LINE")
    return "\n".join(enum(camel(of.name), of.comment, of.members) for code, of in header.codes() if of and code.name not in placed)


def wrapped(sentence: str, indent: str) -> str:
    """A comment, in lines of at most 130 characters."""
    return "".join(f"{indent}/// {it}\n" for it in textwrap.wrap(sentence, 126 - len(indent)))


def method(call: Call) -> str:
    given = f", {call.number}: u64" if call.number else ""
    passed = f", {call.number}" if call.number else ""
    check = "        self.check_moment(now)?;\n" if call.has_moment() else ""
    text = f"{wrapped(call.comment, '    ')}    pub fn {call.name}(&mut self{given}) -> Called {{\n{check}"
    text += f"        // SAFETY: {SAFE if call.name == 'tick' else 'as in `tick`.'}\n"
    return text + f"        called(unsafe {{ sys::relkvanu_{call.name}(self.handle(){passed}) }})\n    }}\n"


def shared_method(call: Call) -> str:
    given, passed = (f", {call.number}: u64", call.number) if call.number else ("", "")
    how = "quietly" if call.is_quiet() else "with"
    return f"    pub fn {call.name}(&self{given}) -> Called {{\n        self.{how}(|it| it.{call.name}({passed}))\n    }}\n"


def variant(call: Call) -> str:
    return camel(call.name) + (f" {{ {call.number} }}" if call.number else "")


def variants() -> str:
    """The variants of Call."""
    return "".join(f"    {camel(it.name)}{f' {{ {it.number}: u64 }}' if it.number else ''},\n" for it in calls.calls())


def of_fields(call: Call) -> str:
    """What makes the variant of the fields of a call in C."""
    found = camel(call.name)
    value = "" if call.number is None else " { now }" if call.has_moment() else f" {{ {call.number}: number }}"
    return f"            sys::RELKVANU_{call.kind()} => Call::{found}{value},\n"


def to_fields(call: Call) -> str:
    of = f"of(sys::RELKVANU_{call.kind()})"
    given = "now" if call.has_moment() else f"number: {call.number}"
    return f"            Call::{variant(call)} => {f'sys::relkvanu_call {{ {given}, ..{of} }}' if call.number else of},\n"


# What calls of tasks take, as parameters, in fields and in patterns, and what the library takes of each.
TYPES = {
    **{kind: "{}: u64" for kind in ("moment", "term", "number")}, "place": "{}: usize", "subtask": "{}: (u16, u16)", "list": "{}: &[u64]",
}
FIELDS = {**TYPES, "list": "{}: &'a [u64]"}
PASSED = {**{kind: "{}" for kind in ("moment", "term", "number", "place")}, "subtask": "{0}.0, {0}.1", "list": "{0}.as_ptr(), {0}.len()"}
WRITTEN = {"moment": "now", "term": "term", "number": "number: {}", "subtask": "vertex: subtask.0, index: subtask.1"}


def task_method(call: Function) -> str:
    """A method of those that are answered as others are."""
    check = "        self.check_moment(now)?;\n" if call.has_moment() else ""
    text = f"{wrapped(call.comment, '    ')}    pub fn {call.name}(&mut self, {call.each(TYPES)}) -> Called {{\n{check}"
    lists = "; the slices outlive the call, which keeps none of them" if call.has_list() else ""
    text += f"        // SAFETY: as in `tick`{lists}.\n"
    return text + f"        called(unsafe {{ sys::relkvanu_{call.name}(self.handle(), {call.each(PASSED)}) }})\n    }}\n"


# What reads tell: its type, and what makes it of their answer.
TOLD = {
    "number": ("u64", "read({asked}).a"), "enum": ("{name}", "{name}::of(read({asked}).what)"), "choice": ("Choice", "answer::choice(read({asked}))"),
    "live": ("Option<Live>", "answer::live(read({asked}))"),
    "list": ("Result<Vec<u64>, Fault>", "files(|to| {asked}).map(Option::unwrap_or_default)"),
    "list?": ("Option<Vec<u64>>", 'files(|to| {asked}).expect("a read that takes no memory")'),
}


def look(call: Function) -> str:
    """A read."""
    told, made = TOLD.get(call.tells(), ("Option<u64>", f"number_of({{asked}}, sys::RELKVANU_{call.tells()})"))
    is_list = call.tells().startswith("list")
    given = ", ".join(it for it in ("self.read_handle()", call.each(PASSED), "to.as_mut_ptr(), to.len()" if is_list else "") if it)
    text = f"{wrapped(call.comment, '    ')}    pub fn {call.name}(&self, {call.each(TYPES)}) -> {told.format(name=camel(call.name))} {{\n"
    text += f"        // SAFETY: as in `count`{'; the buffer has as many places as is said' if is_list else ''}.\n"
    return text + f"        {made.format(name=camel(call.name), asked=f'unsafe {{ sys::relkvanu_{call.name}({given}) }}')}\n    }}\n"


def step_method(step: calls.Step, state: str) -> str:
    """A step, of which that of an element alone changes nothing."""
    text = f"{wrapped(step.comment, '    ')}    pub fn {step.name}(&{'mut ' if step.is_change else ''}self, {', '.join(f'{it}: {kind}' for kind, it in step.given)}) -> Stepped {{\n"
    words = ", ".join(it for _, it in step.given)
    return text + f"        stepped!({'change ' if step.is_change else ''}self.{state}, {step.function}, {words})\n    }}\n"


def steps_of(mode: str, state: str) -> str:
    return "\n".join(step_method(it, state) for it in calls.steps(mode))


# The steps that hand out a cut, and those that name a record.
CUTS, NAMING = ("cut", "complete"), ("abandon", "snap")


def step_of() -> str:
    text = "fn step_of(told: sys::relkvanu_step) -> Stepped {\n    match told.what {\n"
    for member, number in header.enums()["step_kind"].members:
        is_fault = member.endswith("_input") or member.endswith("_inputs")
        given = "(Cut { id: told.id })" if member in CUTS else "(told.id)" if member in NAMING else ""
        text += f"        sys::RELKVANU_{number.name} => {'Err(AlignFault' if is_fault else 'Ok(Step'}::{camel(member)}{given}),\n"
    return text + "        other => Err(AlignFault::Unknown(other)),\n    }\n}\n"


def task_variant(call: Function) -> str:
    return f"{wrapped(call.comment.partition('. ')[0].rstrip('.') + '.', '    ')}    {camel(call.name)} {{ {call.each(FIELDS)} }},\n"


def of_task_fields(call: Function) -> str:
    lists = iter(("first", "second"))
    forms = {"moment": "{}", "term": "{}", "number": "{}: number", "subtask": "{}"}
    given = [f"{name}: {next(lists)}" if kind == "list" else forms[kind].format(name) for kind, name in call.given]
    return f"            sys::RELKVANU_CALL_{call.name.upper()} => Call::{camel(call.name)} {{ {', '.join(given)} }},\n"


def to_task_fields(call: Function) -> str:
    pattern = call.each({kind: "{}" for kind in WRITTEN}) + (", .." if call.has_list() else "")
    of = f"of(sys::RELKVANU_CALL_{call.kind().upper()})"
    return f"            Call::{camel(call.name)} {{ {pattern} }} => sys::relkvanu_call {{ {call.each(WRITTEN)}, ..{of} }},\n"


def settings() -> str:
    """The settings, and what they are as numbers and in C."""
    fields = header.settings()
    names = ", ".join(name for name, _, _ in fields)
    flags = [name for name, is_flag, _ in fields if is_flag]
    text = f"/// How a job takes checkpoints.\n{DERIVED}pub struct Settings {{\n"
    text += "".join(f"    /// {told[0].upper()}{told[1:]}.\n    pub {name}: {'bool' if is_flag else 'u64'},\n" for name, is_flag, told in fields)
    numbers = ", ".join(f"u64::from({name})" if is_flag else name for name, is_flag, _ in fields)
    text += f"}}\n\nimpl Settings {{\n    /// The {len(fields)} values in the order of the fields; the last is 0 or 1.\n    pub fn numbers(&self) -> [u64; {len(fields)}] {{\n"
    text += f"        let Settings {{ {names} }} = *self;\n        [{numbers}]\n    }}\n\n"
    text += f"    /// The settings of such numbers. `None` if they are not {len(fields)}, or the last is above 1.\n"
    text += f"    pub fn of_numbers(numbers: &[u64]) -> Option<Settings> {{\n        let &[{names}] = numbers else {{ return None }};\n"
    made = ", ".join(f"{name}: {name} == 1" if is_flag else name for name, is_flag, _ in fields)
    text += f"        ({' && '.join(f'{it} <= 1' for it in flags)}).then_some(Settings {{ {made} }})\n    }}\n}}\n\n"
    for to, of in (("sys::relkvanu_settings", "Settings"), ("Settings", "sys::relkvanu_settings")):
        text += f"impl From<&{of}> for {to} {{\n    fn from(it: &{of}) -> Self {{\n        let {of} {{ {names} }} = *it;\n        {to} {{ {names} }}\n    }}\n}}\n\n"
    return text.rstrip() + "\n"


def generated() -> Dict[str, Dict[str, str]]:
    """What is made, by file and place."""
    return {
        "fault.rs": {"the refusals": refusals(), "the faults": faults()},
        "lines.rs": {"the faults of lines": line_faults()},
        "aligner.rs": {
            "the steps": step_of(), "the steps of an aligner": steps_of("align", "aligner"), "the steps of a recorder": steps_of("unaligned", "recorder"),
        },
        "call.rs": {
            "the calls": variants() + "".join(task_variant(it) for it in calls.of_tasks()),
            "what reads the calls": "".join([*(of_fields(it) for it in calls.calls()), *(of_task_fields(it) for it in calls.of_tasks("ack_in", "decline_in"))]),
            "what writes the calls": "".join([*(to_fields(it) for it in calls.calls()), *(to_task_fields(it) for it in calls.of_tasks())]),
        },
        "coordinator.rs": {
            "the settings": settings(),
            "the calls of one number": "\n".join(method(it) for it in calls.plain()),
            "the calls of tasks": "\n".join(task_method(it) for it in calls.of_tasks("reserve", "forfeit")),
            "the reads": "\n".join(look(it) for it in calls.looks()),
        },
        "shared.rs": {"the calls of one number": "\n".join(shared_method(it) for it in calls.plain())},
        "answer.rs": {
            "the modes": enum("Mode", "What the job is doing.", header.members("mode_")),
            "the standings": enum("Standing", "What a number is.", header.members("stands_")),
            "the answers": answers(),
        },
    }
