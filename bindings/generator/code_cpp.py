"""The kinds, replies, refusals and faults in C++, for relkvanu.hpp."""
import pathlib
import textwrap
from typing import Dict, List, Optional, Tuple

from generator import calls, header, store
from generator.calls import Call, Function
from generator.code_c import c_type
from generator.header import Enum, Number, camel

# Codes that go before the names of what they have. Any other one has its own name there.
PREFIXES = {"REFUSED": "", "BAD_ARGUMENT": "", "BAD_LINE": "line_"}
SENTENCES = {"NO_MEMORY": "Make the same call again.", "CLOSED": "The coordinator was moved from.", "TOO_SHORT": "The buffer needs more places."}
MESSAGES = {"NO_MEMORY": "out of memory", "TOO_SHORT": "the buffer is too short"}
# Calls with several replies. The others have one.
CALLS = ("TICK", "ACK", "DECLINE")


def errors_of(code: Number, of: Optional[Enum]) -> List[Tuple[str, str, str, str]]:
    """The errors of a code: name, value, sentence and message."""
    value = f"RELKVANU_{code.name} << 8"
    if of is None:
        return [(code.name.lower(), value, SENTENCES.get(code.name, code.sentence()), MESSAGES.get(code.name, header.words(code.name)))]
    prefix = PREFIXES.get(code.name, f"{code.name.lower()}_")
    return [(prefix + member, f"{value} | RELKVANU_{it.name}", it.sentence(), camel(member)) for member, it in of.members]


def errors() -> List[Tuple[str, str, str, str]]:
    return [it for code, of in header.codes() for it in errors_of(code, of)]


def error_enum() -> str:
    lines = "".join(f"    {name} = {value},{f' /* {told} */' if told else ''}\n" for name, value, told, _ in errors())
    codes = " || ".join(f"code == RELKVANU_{code.name}" for code, of in header.codes() if of)
    text = f"enum class error : int {{\n{lines}    unknown = 0xff << 8, /* The library is of another version. After it alone the call may have been made. */\n}};\n\n"
    return text + f"/* Whether an answer with this code has a `what`. */\nconstexpr bool has_what(std::uint32_t code) noexcept {{\n    return {codes};\n}}\n"


def messages() -> str:
    refused = {name for code, of in header.codes() if code.name == "REFUSED" for name, _, _, _ in errors_of(code, of)}
    text = "inline const char *message_of(error it) noexcept {\n    switch (it) {\n"
    text += "".join(f'    case error::{name}: return "{message}";\n' for name, _, _, message in errors() if name not in refused)
    return text + '    default: return "unknown";\n    }\n}\n'


def errors_of_statuses(path: pathlib.Path, *more: str) -> str:
    """The statuses of a store or a storage but that of success, and more numbers, as errors with messages."""
    prefix, kind = f"{path.stem.upper()}_", f"{path.stem.removeprefix('relkvanu_')}_error"
    found = [*(it.removeprefix(prefix) for it in store.statuses(path)[1:]), *more]
    text = f"enum class {kind} : int {{\n" + "".join(f"    {it.lower()} = {prefix}{it},\n" for it in found) + "};\n\n"
    text += f"inline const char *message_of({kind} it) noexcept {{\n    switch (it) {{\n"
    return text + "".join(f'    case {kind}::{it.lower()}: return "{camel(it)}";\n' for it in found) + '    default: return "unknown";\n    }\n}\n'


def name(number: Number) -> str:
    return number.name.removeprefix("TICK_").lower()


def structs() -> str:
    text = ""
    for it in header.replies():
        fields = ", ".join(field for field, _, _ in it.fields())
        if not it.name.startswith("RESTORED_") and it.name not in ("DELETED", "UNDELETED", "COUNTED"):
            body = f"{{ std::uint64_t {fields}; }}" if fields else "{}"
            text += f"struct {name(it)} {body};{f' /* {it.sentence()} */' if it.sentence() else ''}\n"
    return text


def answers() -> str:
    text = ""
    for call in CALLS:
        found = [it for it in header.replies() if it.name.startswith(f"{call}_")]
        text += f"using {call.lower()}_answer = std::variant<{', '.join(name(it) for it in found)}, refused>;\n"
    return text + "".join(f"using {call.name}_answer = std::variant<{name(it)}, refused>;\n" for call, it in with_one_reply())


def with_one_reply() -> List[Tuple[Call, Number]]:
    """The calls of one number with a reply of their own. The reports of files have one together, which relkvanu.hpp names."""
    found = [(call, call.reply()) for call in calls.stored()]
    return [(call, it) for call, it in found if it is not None]


def converters() -> str:
    text = ""
    for call in CALLS:
        text += f"inline {call.lower()}_answer {call.lower()}_of(relkvanu_answer told) noexcept {{\n"
        text += "    if (told.code != RELKVANU_DONE) {\n        return refusal(told);\n    }\n    switch (told.what) {\n"
        text += "".join(case(it) for it in header.replies() if it.name.startswith(f"{call}_"))
        text += "    default: return refusal(told);\n    }\n}\n\n"
    return text + "\n".join(converter(call, it) for call, it in with_one_reply())


def converter(call: Call, it: Number) -> str:
    text = f"inline {call.name}_answer {call.name}_of(relkvanu_answer told) noexcept {{\n"
    value = f"{name(it)}{{{', '.join(f'told.{letter}' for _, letter, _ in it.fields())}}}"
    return text + f"    return is_reply(told, RELKVANU_{it.name}) ? {call.name}_answer({value}) : refusal(told);\n}}\n"


def comment(text: str, indent: str = "    ") -> str:
    """A comment, in lines of at most 140 characters."""
    lines = textwrap.wrap(f"/* {text} */", 140, initial_indent=indent, subsequent_indent=f"{indent} * ")
    return "".join(f"{it}\n" for it in lines)


def declared(call: Call, given: str) -> str:
    """The head of a method. An answer that names a new record may not be dropped."""
    return f"    {'[[nodiscard]] ' if call.names_record() else ''}{call.family()}_answer {call.name}({given}) noexcept {{\n"


def method(call: Call) -> str:
    text = comment(call.comment) + declared(call, f"std::uint64_t {call.number}" if call.number else "")
    if call.name in calls.REPORTS:
        text = text.replace(f"{call.name}_answer", "report_answer", 1)
        return text + f"        return report(relkvanu_{call.name}(&handle_, {call.number}));\n    }}\n"
    if call.has_moment():
        text += "        if (is_ahead(now)) {\n            return too_large();\n        }\n"
    return text + f"        return {call.family()}_of(relkvanu_{call.name}(&handle_{f', {call.number}' if call.number else ''}));\n    }}\n"


# What calls of tasks take, and what the library takes of each.
TYPES = {
    **{kind: "std::uint64_t {}" for kind in ("moment", "term", "number")}, "place": "std::size_t {}",
    "subtask": "std::uint16_t vertex, std::uint16_t index", "list": "files {}",
}
PASSED = {**{kind: "{}" for kind in ("moment", "term", "number", "place")}, "subtask": "vertex, index", "list": "{0}.data(), {0}.size()"}


def task_method(call: Function) -> str:
    """A method of those that are answered as others are. An acknowledgement may reuse no files, and its answer may not be dropped."""
    given = call.each(TYPES).replace("files reused", "files reused = {}")
    text = f"{comment(call.comment)}    {'[[nodiscard]] ' if call.has_list() else ''}{call.family()}_answer {call.name}({given}) noexcept {{\n"
    text += "        if (is_ahead(now)) {\n            return too_large();\n        }\n"
    return text + f"        return {call.family()}_of(relkvanu_{call.name}(&handle_, {call.each(PASSED)}));\n    }}\n"


# What reads tell: its type, and what makes it of the call of the library.
TOLD = {
    "number": ("std::uint64_t", "read({asked}).a"), "enum": ("ckpt::{name}", "{name}_of(read({asked}).what)"), "choice": ("ckpt::choice", "choice_of(read({asked}))"),
    "live": ("std::optional<live_record>", "record_of({asked})"), "list": ("files_answer", "found({asked})"),
    "list?": ("std::optional<std::vector<std::uint64_t>>", "found_if({asked})"),
}


def look(call: Function) -> str:
    """A read."""
    told, made = TOLD.get(call.tells(), ("std::optional<std::uint64_t>", f"number_of({{asked}}, RELKVANU_{call.tells()})"))
    passed = call.each({kind: f", {it}" for kind, it in PASSED.items()}, "")
    asked, how = f"relkvanu_{call.name}(&handle_{passed})", " noexcept"
    if call.tells().startswith("list"):
        asked, how = f"[&](std::uint64_t *places, std::size_t len) {{ return {asked[:-1]}, places, len); }}", ""
    text = f"{comment(call.comment)}    [[nodiscard]] {told.format(name=call.name)} {call.name}({call.each(TYPES)}){how} {{\n"
    return text + f"        return {made.format(name=call.name, asked=asked)};\n    }}\n"


# The steps that have a type of their own.
TYPED = ("cut", "abandon", "snap", "complete")


def step_enum() -> str:
    found = [(member, f"RELKVANU_{number.name}") for member, number in header.enums()["step_kind"].members if member not in TYPED]
    text = "enum class step : std::uint32_t {\n" + "".join(f"    {member} = {number},\n" for member, number in found)
    text += "    unknown = 0, /* The library is of another version. */\n};\n\ninline step step_of(std::uint32_t what) noexcept {\n    switch (what) {\n"
    cases = "\n".join(f"    case {number}:" for _, number in found)
    return text + f"{cases} return static_cast<step>(what);\n    default: return step::unknown;\n    }}\n}}\n"


def steps_of(mode: str, kind: str) -> str:
    """The steps of an aligner or a recorder, of which that of an element is told by a step alone."""
    text = []
    for step in calls.steps(mode):
        given = ", ".join(f"std::{kind.replace('u', 'uint')}_t {it}" for kind, it in step.given)
        asked = f"{step.function}(&state_, inputs_.data(), inputs_.size(), {', '.join(it for _, it in step.given)})"
        head, made = (f"{kind}_answer", f"answer({asked})") if step.is_change else ("step", f"step_of({asked}.what)")
        text.append(f"{comment(step.comment)}    [[nodiscard]] {head} {step.name}({given}){'' if step.is_change else ' const'} noexcept {{\n        return {made};\n    }}\n")
    return "\n".join(text).replace("aligner_answer", "step_answer")


def store_method(call: Call) -> str:
    default = " = RELKVANU_STORE_NOW" if call.has_moment() else ""
    given = f"std::uint64_t {call.number}{default}" if call.number else ""
    number = (", now" if call.has_moment() else f", 0, {call.number}") if call.number else ", 0"
    text = comment(call.comment) + declared(call, given)
    return text + f"        return one<{call.family()}_answer>(call(RELKVANU_{call.kind()}{number}), {call.family()}_of);\n    }}\n"


def making(it: store.Making) -> str:
    """A function that makes something of manifests. The number of a record comes last, and is 0 for the last one."""
    name = it.name + ("_record" if it.name in ("export", "import", "claim") else "")
    given = [f"const std::string &{word}" for word, is_text in it.given if is_text] + [f"std::uint64_t {word} = 0" for word, is_text in it.given if not is_text]
    passed = ", ".join(f"{word}.c_str()" if is_text else word for word, is_text in it.given)
    head = f"[[nodiscard]] inline std::variant<relkvanu_store_{it.told}, not_made> {name}({', '.join(given)}) {{\n    relkvanu_store_{it.told} made;\n"
    return comment(it.comment, "") + head + f"    int status = relkvanu_store_{it.name}({passed}, &made);\n    return detail::told(status, made);\n}}\n"


def case(it: Number) -> str:
    return f"    case RELKVANU_{it.name}: return {name(it)}{{{', '.join(f'told.{letter}' for _, letter, _ in it.fields())}}};\n"


def enum(kind: str, prefix: str) -> str:
    members = header.members(prefix)
    text = f"enum class {kind} {{ {', '.join(member for member, _ in members)}, unknown }};\n\n"
    text += f"inline {kind} {kind}_of(std::uint32_t what) noexcept {{\n    switch (what) {{\n"
    return text + "".join(f"    case RELKVANU_{it.name}: return {kind}::{member};\n" for member, it in members) + f"    default: return {kind}::unknown;\n    }}\n}}\n"


def generated() -> Dict[str, Dict[str, str]]:
    """What is made, by file and place."""
    return {
        "relkvanu.hpp": {
            **kinds(), "the calls of one number": "\n".join(method(it) for it in calls.plain()),
            "the calls of tasks": "\n".join(task_method(it) for it in calls.of_tasks("reserve", "forfeit")),
            "the reads": "\n".join(look(it) for it in calls.looks()), "the kinds of steps": step_enum(),
            "the steps of an aligner": steps_of("align", "aligner"), "the steps of a recorder": steps_of("unaligned", "recorder"),
        },
        "relkvanu_storage.hpp": {"the errors of a storage": errors_of_statuses(store.STORAGE)},
        "relkvanu_store.hpp": {
            "the errors of a store": errors_of_statuses(store.STORE, "NOT_MADE"), "what is made of manifests": "\n".join(making(it) for it in store.makings()),
            "the calls of one number": "\n".join(store_method(it) for it in calls.stored()),
        },
    }


def of_strangers() -> Dict[str, str]:
    """For bindings/cpp/unknown.cpp: functions whose answers are unknown, and calls of them."""
    _, declared = header.declarations()
    answering = {name: it for name, it in declared.items() if header.pointed(it.type)[0] == "relkvanu_answer" and name != "relkvanu_open"}
    functions = [f"relkvanu_answer {name}({', '.join(c_type(kind) for _, kind in header.parameters(it))}) {{ return answer(); }}\n" for name, it in answering.items()]
    told = [f"!is_unknown(job.{it.name}({'1' if it.number else ''}))" for it in calls.plain()]
    return {"the functions": "".join(functions), "the calls of one number": f"    return {' + '.join(told)};\n"}


def kinds() -> Dict[str, str]:
    return {
        "the errors": error_enum(), "the messages": messages(), "the replies": structs(), "the answers": answers(),
        "what tells the answers": converters(), "the modes": enum("mode", "mode_"), "the standings": enum("standing", "stands_"),
    }
