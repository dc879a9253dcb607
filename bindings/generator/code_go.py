"""The kinds, replies, refusals and faults in Go. cgo has the numbers of the header."""
import re
import subprocess
import textwrap
from typing import Dict, Iterable, List, Optional, Sequence, Tuple, Union

from generator import calls, header
from generator.calls import Call, Function
from generator.header import Enum, Number, camel

# Names that Go writes in another way.
NAMES = {"ids_used_up": "IDsUsedUp"}
# Codes whose enums have another name in Go, with what an error of it says. A refusal has a type of its own.
PLACED = {"REFUSED": ("Refusal", ""), "BAD_ARGUMENT": ("BadArgument", "an argument is outside its limits"), "BAD_LINE": ("LineFault", "the line can't be read")}
# What is before the names of their members.
BEFORE = {"BadArgument": "", "LineFault": "Line"}
Names = List[Tuple[str, Number]]


def constants(kind: str, members: Names) -> str:
    lines = [f"\t{name} {kind} = C.RELKVANU_{it.name}{f' // {it.sentence()}' if it.sentence() else ''}\n" for name, it in members]
    return "".join(lines)


def numbers(kind: str, told: str, members: Names, texts: Sequence[str] = ()) -> str:
    """A type of numbers of the header, with what each prints, if it prints a text."""
    text = f"// {kind} is {told}.\ntype {kind} uint32\n\n// The numbers of {kind}.\nconst (\n{constants(kind, members)})\n"
    if texts:
        text += f"\nvar names{kind} = map[{kind}]string{{\n{named(members, texts)}}}\n\n// String is as a script prints it, such as \"{texts[-1]}\".\n"
        text += f"func (it {kind}) String() string {{ return named(names{kind}, it) }}\n"
    return text


def named(members: Names, texts: Sequence[str]) -> str:
    return "".join(f'\t{name}: "{text}",\n' for (name, _), text in zip(members, texts))


def of(enum: str, before: str = "") -> Names:
    return [(before + NAMES.get(member, camel(member)), number) for member, number in header.enums()[enum].members]


def camels(enum: str) -> List[str]:
    return [camel(member) for member, _ in header.enums()[enum].members]


# Replies and modes whose names Go has without their call, or with another word.
SHORT = {"TICK_FAILED": "TickFailed", "MODE_CANCELLED": "WasCancelled"}


def replies(prefix: str, cut: str) -> Names:
    """The replies whose names begin so. Their names in Go lack what is cut."""
    found = [it for it in header.numbers().values() if it.name.startswith(prefix)]
    return [(SHORT.get(it.name, camel(it.name.removeprefix(cut))), it) for it in found]


def ends(prefix: str) -> List[str]:
    """What scripts print of a tick's end: what follows its numbers."""
    return [(it.form or "").split("} ")[-1].partition(" {")[0] for _, it in replies(prefix, "")]


def error_enum(code: Number, it: Enum) -> str:
    """The enum of a code, which is an error."""
    kind, told = PLACED.get(code.name, (camel(it.name), header.words(code.name)))
    members = [(BEFORE.get(kind, kind) + camel(member), number) for member, number in it.members]
    text = f"// {kind}: {it.comment}\ntype {kind} uint32\n\n// The numbers of {kind}.\nconst (\n{constants(kind, members)})\n\n"
    text += f"var names{kind} = map[{kind}]string{{\n{named(members, camels(it.name))}}}\n\n// String is the name, such as \"{camels(it.name)[0]}\".\n"
    text += f"func (it {kind}) String() string {{ return named(names{kind}, it) }}\n\n"
    return text + f'func (it {kind}) Error() string {{ return "relkvanu: {told}: " + it.String() }}\n'


def with_file(members: Names) -> List[str]:
    return [name for name, number in members if "file" in [field for field, _, _ in number.fields()]]


def cases() -> str:
    """The faults of codes whose answers have a number alone, and name no file."""
    found = [(code.name, PLACED.get(code.name, (camel(enum.name), ""))[0]) for code, enum in header.codes() if enum and not with_file(enum.members)]
    return "".join(f"\tcase C.RELKVANU_{code}:\n\t\treturn {kind}(answer.what)\n" for code, kind in found)


ANSWER = "func(handle *C.relkvanu) C.relkvanu_answer"


def wrapped(text: str) -> str:
    return "".join(f"// {it}\n" for it in textwrap.wrap(text, 137))


def go_name(field: str) -> str:
    """A field, or the name of a number in Go."""
    first, *rest = field.split("_")
    return first + "".join(it.capitalize() for it in rest)


def exported(field: str) -> str:
    return "ID" if field == "id" else camel(field)


# Replies whose names in Go are other ones, since a method or an error has theirs.
OF_FILES = {"DELETED": "FileDeleted", "UNDELETED": "FileUndeleted"}


def plain_replies() -> List[Number]:
    """The replies that are all that their call is answered, and print as their numbers."""
    found = [it.reply() for it in calls.of_their_own(calls.plain()) if it.name not in calls.REPORTS]
    return [it for it in found if it] + [header.numbers()[name] for name in (*OF_FILES, "COUNTED", "CONFIGURED")]


def reply_of(call: Call) -> str:
    reply = call.reply()
    return camel(reply.name) if reply else camel(call.family()) + "ed"


def c_call(call: Call) -> str:
    """The function that makes the call. `timed` says by itself that a timer looks again, for calls with a moment."""
    given = f", C.uint64_t({go_name(call.number)})" if call.number else ""
    made = f"return C.relkvanu_{call.name}(handle{given})"
    return f"{ANSWER} {{ {made} }}" if call.has_moment() or call.is_quiet() else f"{ANSWER} {{\nc.owner.moved()\n{made}\n}}"


def comment_of(call: Union[Call, Function]) -> str:
    return wrapped(f"{camel(call.name)}: {call.comment}")


def signature(call: Call, of: str, number: Optional[str]) -> str:
    given = f"{go_name(number)} uint64" if number else ""
    return f"func ({of[0].lower()} *{of}) {camel(call.name)}({given}) ({reply_of(call)}, error)"


def method(call: Call) -> str:
    text, reply = comment_of(call) + signature(call, "Coordinator", call.number) + " {\n", call.reply()
    if reply is None:
        return text + f"\treturn replied(c, now, {reply_of(call).lower()}, {c_call(call)})\n}}\n"
    how = f"onlyAt(now, C.RELKVANU_{reply.name}, " if call.has_moment() else f"only(C.RELKVANU_{reply.name}, "
    fields = ", ".join(f"{exported(field)}: uint64(answer.{letter})" for field, letter, _ in reply.fields())
    given = "answer, err" if fields else "_, err"
    return text + f"\t{given} := c.{how}{c_call(call)})\n\treturn {reply_of(call)}{{{fields}}}, err\n}}\n"


def line(call: Call) -> str:
    name, number = camel(call.name), go_name(call.number or "")
    article, given = "an" if call.name[0] in "aeiou" else "a", f"{number} uint64" if number else ""
    made = f"atMoment(Call{name}, now)" if call.has_moment() else f"ofNumber(Call{name}, {number or 0})"
    return f"// {name}Line is the line of {article} {name}.\nfunc {name}Line({given}) ([]byte, error) {{ return {made} }}\n"


# What calls of tasks take, what the library takes of each, and the fields of a Call.
TYPES = {**{kind: "{} uint64" for kind in ("moment", "term", "number", "place")}, "subtask": "{} Subtask", "list": "{} []uint64"}
PASSED = {
    **{kind: "C.uint64_t({})" for kind in ("moment", "term", "number")}, "place": "C.size_t({})",
    "subtask": "C.uint16_t({0}.Vertex), C.uint16_t({0}.Index)", "list": "{0}At, {0}Length",
}
FIELDS = {"moment": "Now: {}", "term": "Term: {}", "number": "Number: {}", "subtask": "Subtask: {}"}


def in_go(call: Function) -> Function:
    return call._replace(given=[(kind, go_name(name)) for kind, name in call.given])


def task_method(call: Function) -> str:
    """A method of those that are answered as others are."""
    made, name = in_go(call), {"ack": "acked", "decline": "declined", "restore": "restored"}[call.family()]
    text = f"{comment_of(call)}func (c *Coordinator) {camel(call.name)}({made.each(TYPES)}) ({name.capitalize()}, error) {{\n"
    text += f"\treturn replied(c, now, {name}, {ANSWER} {{\n" + made.each({"list": "\t\t{0}At, {0}Length := list({0})\n"}, "")
    return text + f"\t\treturn C.relkvanu_{call.name}(handle, {made.each(PASSED)})\n\t}})\n}}\n"


# What reads tell, beside the error, and what is returned of their answer.
TOLD = {
    "number": ("uint64", "uint64(answer.a), err"), "enum": ("{}", "{0}(answer.what), known(names{0}, answer, err)"), "choice": ("Choice", "chosen(answer, err)"),
    "live": ("Live, bool", "live(answer, err)"), "list": ("[]uint64", "files, err"), "list?": ("[]uint64, bool", ""),
}


def look(call: Function) -> str:
    """A read."""
    made, name = in_go(call), camel(call.name)
    told, value = TOLD.get(call.tells(), ("uint64, bool", f"uint64(answer.a), err == nil && answer.what == C.RELKVANU_{call.tells()}, err"))
    text = f"{comment_of(call)}func (c *Coordinator) {name}({made.each(TYPES)}) ({told.format(name)}, error) {{\n"
    passed = made.each({kind: f", {it}" for kind, it in PASSED.items()}, "")
    if call.tells().startswith("list"):
        made_of = f"c.files(func(o *owner, at *C.uint64_t, length C.size_t) C.relkvanu_answer {{\n\t\treturn C.relkvanu_{call.name}(o.handle{passed}, at, length)\n\t}})\n"
        return text + (f"\tfiles, _, err := {made_of}\treturn {value}\n}}\n" if value else f"\treturn {made_of}}}\n")
    text += f"\tanswer, err := c.called({ANSWER} {{ return C.relkvanu_{call.name}(handle{passed}) }})\n"
    return text + f"\treturn {value.format(name)}\n}}\n"


def task_line(call: Function) -> str:
    made, name = in_go(call), camel(call.name)
    lists = zip(("First", "Second"), (it for kind, it in made.given if kind == "list"))
    fields = [f"Kind: Call{camel(call.kind())}", made.each(FIELDS), *(f"{field}: {it}" for field, it in lists)]
    article = "an" if name[0] in "AEIOU" else "a"
    return f"// {name}Line is the line of {article} {name}.\nfunc {name}Line({made.each(TYPES)}) ([]byte, error) {{\n\treturn Call{{{', '.join(fields)}}}.Line()\n}}\n"


def reply_type(it: Number) -> str:
    """The type of a reply, which prints as a script does."""
    name, fields = OF_FILES.get(it.name, camel(it.name)), [exported(field) for field, _, _ in it.fields()]
    told = "; ".join(f"{exported(field)}: {what}" for field, _, what in it.fields())
    document = " ".join([f"{name}:"] + [part for part in (it.sentence(), f"{told}." if told else "") if part])
    body = f" {', '.join(fields)} uint64 " if fields else ""
    text = wrapped(document) + f"type {name} struct{{{body}}}\n\nfunc ({name}) isReply() {{}}\n\n"
    by_letter = {letter: f"r.{exported(field)}" for field, letter, _ in it.fields()}
    form = header.form_of(it, None, it.name, it)
    values = ", ".join(by_letter[letter] for letter in re.findall(r"{(\w)}", form))
    printed = f'fmt.Sprintf("{re.sub("{.}", "%d", form)}", {values})' if values else f'"{form}"'
    return text + f"func (r {name}) String() string {{ return {printed} }}\n"


def case(it: Number) -> str:
    name = OF_FILES.get(it.name, camel(it.name))
    return f"\tcase C.RELKVANU_{it.name}:\n\t\treturn {name}{{{', '.join(letter for _, letter, _ in it.fields())}}}, nil\n"


def listed(declarations: Iterable[str]) -> str:
    """Declarations below the comment that names the place, which is not the first one's."""
    return "".join(f"\n{it}" for it in declarations) + "\n"


def settings() -> str:
    """The settings, and what makes them those of C. Fields are named there, because cgo adds one for the padding."""
    fields = header.settings()
    text = "// Settings is how a job takes checkpoints.\ntype Settings struct {\n"
    text += "".join(f"\t{camel(name)} {'bool' if is_flag else 'uint64'} // {told}\n" for name, is_flag, told in fields)
    text += "}\n\nfunc (s Settings) inC() C.relkvanu_settings {\n\treturn C.relkvanu_settings{\n"
    return text + "".join(f"\t\t{name}: C.{'bool' if is_flag else 'uint64_t'}(s.{camel(name)}),\n" for name, is_flag, _ in fields) + "\t}\n}\n"


def generated() -> Dict[str, Dict[str, str]]:
    """What is made, by file and place."""
    modes, standings = replies("MODE_", "MODE_"), replies("STANDS_", "STANDS_")
    ticks = replies("TICK_", "TICK_")
    return {
        "errors.go": {
            "the refusals": constants("Refusal", of("refusal")),
            "the other errors": listed(error_enum(code, enum) for code, enum in header.codes() if enum and code.name != "REFUSED"), "the codes": cases(),
            "which refusals name a file": "".join(f"\t{it}: true,\n" for it in with_file(of("refusal"))),
            "which reasons name a file": "".join(f"\t{it}: true,\n" for it in with_file(of("fenced", "Fenced"))),
        },
        "coordinator.go": {"the calls of one number": listed(method(it) for it in calls.stored())},
        "names.go": {"the calls of tasks": listed(task_method(it) for it in calls.of_tasks("reserve", "forfeit"))},
        "lines.go": {
            "the lines of calls of one number": listed(line(it) for it in calls.calls()),
            "the lines of calls of tasks": listed(task_line(it) for it in calls.of_tasks("advance")),
            "the replies to calls of one number": "".join(case(it) for it in plain_replies()),
        },
        "relkvanu.go": {"the settings": listed([settings()])},
        "calls.go": {"the kinds": listed([numbers("CallKind", "which call it is", of("call_kind", "Call"))])},
        "replies.go": {
            "the ends of ticks": listed([numbers("TickEnd", "what a tick did after records had expired. The zero value is that of no tick", ticks, ends("TICK_"))]),
            "the ends of acknowledgements": listed([numbers("AckEnd", "what an accepted acknowledgement did", replies("ACK_", ""))]),
            "the ends of declines": listed([numbers("DeclineEnd", "what a decline did", replies("DECLINE_", ""))]),
            "the replies to calls of one number": listed(reply_type(it) for it in plain_replies()),
        },
        "reads.go": {
            "the modes": listed([numbers("Mode", "what a job is doing", modes, [header.words(it.name.removeprefix("MODE_")) for _, it in modes])]),
            "the standings": listed([numbers("Standing", "what a number is", standings, [header.words(it.name.removeprefix("STANDS_")) for _, it in standings])]),
            "the reads": listed(look(it) for it in calls.looks()),
        },
    }


def formatted(text: str) -> str:
    return subprocess.run(["gofmt"], input=text, capture_output=True, text=True, check=True).stdout
