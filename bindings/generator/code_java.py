"""The header, the native methods, and the kinds, replies, refusals and faults in Java."""
import textwrap
from typing import Any, Dict, List, Tuple

from generator import calls, header
from generator.calls import Call, Function
from generator.header import MADE, Enum, Number, macros, parameters, pointed

# What Java has no native method for: the two buffers of the first have lengths of two kinds, and no class of Java writes a log of its own, for
# which the groups are. Of each step of an alignment Java would copy the bytes of all inputs. No class calls
# the function for the text of an answer's numbers. It brings that function into the native library, in which the store's looks for it.
GROUPS = [f"relkvanu_group_{it}" for it in ("make", "hold", "synced", "failed", "answer")]
LEFT_OUT = {"relkvanu_make", *GROUPS, *(f"relkvanu_{mode}_{it}" for mode in ("align", "unaligned") for it in ("open", "element", "barrier", "end", "give_up")),
            "relkvanu_unaligned_overtake"}

# The head of a file in C, which stays as it is made.
IN_C = f"/* {MADE} */\n/* clang-format off */\n"

# A number of the header in Java and in JNI, and an array of them.
IN_JAVA = {
    "uint8_t": ("byte", "jbyte"),
    "uint16_t": ("int", "jint"),
    "uint32_t": ("int", "jint"),
    "uint64_t": ("long", "jlong"),
    "size_t": ("long", "jlong"),
}
# The result of a function in Java and in JNI. A struct is written into an array.
RESULTS = {"size_t": ("long", "jlong"), "char": ("String", "jstring")}


def java_name(name: str) -> str:
    first, *rest = name.removeprefix("relkvanu_").split("_")
    return first + "".join(it.capitalize() for it in rest)


class JavaFunction:
    """A native method in Java, and its function in C over JNI. A handle is its address. A struct is an array of its fields. A pointer with a
    length is an array: its elements are copied, because no other thread may change them in a call, and nothing is pinned."""

    def __init__(self, name: str, function: Any, structs: Dict[str, Any]) -> None:
        self.name, self.structs = name, structs
        self.result = pointed(function.type)[0]
        self.given: List[Tuple[str, str, str]] = []
        self.declared: List[str] = []
        self.rooms: List[Tuple[str, str]] = []
        self.arguments: List[str] = []
        self.outs: List[Tuple[str, str]] = []
        self.filled: List[str] = []
        for it, kind in parameters(function):
            self.take(it, *pointed(kind))
        if self.result in structs:
            self.given.append(("long[]", "jlongArray", "out"))

    def take(self, name: str, of: str, depth: int, is_const: bool) -> None:
        if (of, depth) == ("relkvanu", 1):
            self.given.append(("long", "jlong", name))
            self.arguments.append(f"(relkvanu *)(uintptr_t){name}")
        elif depth == 1 and of in self.structs:
            self.take_struct(name, of, is_const)
        elif depth == 1:
            self.take_array(name, of, is_const)
        elif not name.endswith("_len"):
            self.given.append((*IN_JAVA[of], name))
            self.arguments.append(f"({of}){name}")

    def take_struct(self, name: str, of: str, is_const: bool) -> None:
        self.given.append(("long[]", "jlongArray", name))
        self.declared.append(f"{of} in_{name} = {short(of)}_in(env, {name});")
        self.arguments.append(f"&in_{name}")
        self.filled += [] if is_const else [f"{short(of)}_out(env, {name}, in_{name});"]

    def take_array(self, name: str, of: str, is_const: bool) -> None:
        java, jni = IN_JAVA[of]
        self.given.append((f"{java}[]", f"{jni}Array", name))
        self.declared.append(f"struct room of_{name};")
        self.rooms.append((name, f"{java}s_in" if is_const else f"{java}s_room"))
        self.arguments += [f"of_{name}.at", f"of_{name}.len"]
        self.outs += [] if is_const else [(name, java)]

    def lengths(self) -> List[str]:
        """How many elements the call has written to each array. If there are two, the comment of an answer's number names the function."""
        if len(self.outs) < 2:
            return ["told" if self.result == "size_t" else "written(told)"]
        (what,) = [it.name for it in macros() if f"of {self.name} a, b: " in it.comment]
        return [f"told.code == RELKVANU_DONE && told.what == {what} ? told.{it} : 0" for it in ("a", "b")]

    def body(self) -> List[str]:
        call = f"{self.name}({', '.join(self.arguments)})"
        tell = {"void": "{};", "char": "return (*env)->NewStringUTF(env, {});", "size_t": "return (jlong){};"}
        tell = tell.get(self.result, f"{short(self.result)}_out(env, out, {{}});")
        if not self.rooms:
            return [*self.declared, tell.format(call)]
        none = "0" if self.result == "size_t" else "{RELKVANU_NO_MEMORY, 0, 0, 0}"
        opened = " & ".join(f"{how}(env, &of_{name}, {name})" for name, how in self.rooms)
        return [
            *self.declared, f"{self.result} told = {none};", f"if ({opened}) {{", f"    told = {call};", "}",
            *(f"{java}s_out(env, &of_{name}, {name}, {length});" for (name, java), length in zip(self.outs, self.lengths())), *self.filled,
            *(f"close_room(&of_{name});" for name, _ in self.rooms), tell.format("told"),
        ]

    def c(self) -> str:
        given = "".join(f", {jni} {name}" for _, jni, name in self.given)
        lines = ["(void)of;", *self.body()]
        if not any("env" in it for it in lines):
            lines.insert(0, "(void)env;")
        text = "".join(f"    {it}\n" for it in lines)
        return f"JNIEXPORT {RESULTS.get(self.result, ('', 'void'))[1]} JNICALL Java_relkvanu_Native_{java_name(self.name)}(JNIEnv *env, jclass of{given}) {{\n{text}}}\n"

    def java(self) -> str:
        given = ", ".join(f"{java} {java_name(name)}" for java, _, name in self.given)
        return f"    static native {RESULTS.get(self.result, ('void', ''))[0]} {java_name(self.name)}({given});\n"


def short(struct: str) -> str:
    return struct.removeprefix("relkvanu_")


def struct_in(name: str, fields: Any) -> str:
    values = ", ".join(f"({pointed(it.type)[0]})numbers[{place}]" for place, it in enumerate(fields))
    return f"""
static inline {name} {short(name)}_of(const jlong *numbers) {{
    return ({name}){{{values}}};
}}

static inline {name} {short(name)}_in(JNIEnv *env, jlongArray array) {{
    jlong numbers[{short(name).upper()}_NUMBERS] = {{0}};
    (*env)->GetLongArrayRegion(env, array, 0, {short(name).upper()}_NUMBERS, numbers);
    return {short(name)}_of(numbers);
}}
"""


def struct_out(name: str, fields: Any) -> str:
    lines = "".join(f"    numbers[{place}] = (jlong)it.{field.name};\n" for place, field in enumerate(fields))
    return f"""
static inline void {short(name)}_to(jlong *numbers, {name} it) {{
{lines}}}

static inline void {short(name)}_out(JNIEnv *env, jlongArray array, {name} it) {{
    jlong numbers[{short(name).upper()}_NUMBERS];
    {short(name)}_to(numbers, it);
    (*env)->SetLongArrayRegion(env, array, 0, {short(name).upper()}_NUMBERS, numbers);
}}
"""


def java_structs(structs: Dict[str, Any], functions: List[JavaFunction]) -> str:
    """The structs of the header as numbers of Java, from arrays or to them as the functions need it."""
    text, used = f"{IN_C}#ifndef RELKVANU_STRUCTS_H\n#define RELKVANU_STRUCTS_H\n\n", "".join(it.c() for it in functions)
    text += '#include "../../../include/relkvanu.h"\n\n#include <jni.h>\n'
    for name, fields in numbered(structs):
        text += f"\n/* {name} */\nenum {{ {short(name).upper()}_NUMBERS = {len(fields)} }};\n"
        text += struct_in(name, fields) if f" {short(name)}_in(" in used else ""
        text += struct_out(name, fields) if f" {short(name)}_out(" in used else ""
    return text + "\n#endif\n"


def numbered(structs: Dict[str, Any]) -> List[Tuple[str, Any]]:
    """All structs but the handle, of which Java has the address, and those of what is left out."""
    return [(name, fields) for name, fields in structs.items() if name not in ("relkvanu", "relkvanu_made", "relkvanu_group", "relkvanu_aligner", "relkvanu_recorder", "relkvanu_step")]


def java_c(functions: List[JavaFunction]) -> str:
    """The functions over JNI. An answer that writes to a buffer says so in the comment of its number."""
    writers = [it.name for it in macros() if "at the start of the buffer" in it.comment]
    text = IN_C + '#include "room.h"\n#include "structs.h"\n\n'
    text += "/* How many elements an answer has written to the start of the buffer. */\n"
    text += "static uint64_t written(relkvanu_answer told) {\n    if (told.code != RELKVANU_DONE) {\n        return 0;\n    }\n    switch (told.what) {\n"
    text += "".join(f"    case {it}:\n" for it in writers) + "        return told.a;\n    default:\n        return 0;\n    }\n}\n\n"
    return text + "\n".join(it.c() for it in functions)


def java_native(structs: Dict[str, Any], functions: List[JavaFunction]) -> str:
    text = f"package relkvanu;\n\n/** {MADE} A class that calls it has the lock of the handle. */\nfinal class Native {{\n    private Native() {{}}\n\n"
    text += "".join(f"    /** How many numbers {name} has. */\n    static final int {short(name).upper()} = {len(fields)};\n\n" for name, fields in numbered(structs))
    text += "    /** Returns the address of a closed handle, or 0 without memory. */\n    static native long create();\n\n"
    text += "    /** Frees the memory of a closed handle. */\n    static native void destroy(long handle);\n\n"
    return text + "\n".join(it.java() for it in functions) + "}\n"


def java_header() -> str:
    text = f"package relkvanu;\n\n/** {MADE} */\nfinal class Header {{\n    private Header() {{}}\n\n"
    for it in macros():
        kind = "String" if it.value.startswith('"') else "int"
        text += (f"    /** {it.comment} */\n" if it.comment else "") + f"    static final {kind} {it.name.removeprefix(header.OWN)} = {it.value.rstrip('u')};\n"
    return text + "}\n"


# Enums with a class of their own: all but those whose numbers have other classes.
WITHOUT_CLASS = ("code", "reply", "call_kind", "step_kind")


def sentence(number: Number) -> str:
    told = number.sentence() or f"{header.words(number.name).capitalize()}."
    return told.replace("2^62", "2<sup>62</sup>")


def constants(members: List[Tuple[str, Number]]) -> str:
    return ",\n".join(f"    /** {sentence(it)} */\n    {member.upper()}(Header.{it.name})" for member, it in members)


def names_file(members: List[Tuple[str, Number]]) -> str:
    """Which answers name a file, if any does."""
    found = [member for member, number in members if "file" in [field for field, _, _ in number.fields()]]
    if not found:
        return ""
    told = " || ".join(f"this == {it.upper()}" for it in found)
    return f"\n    /** Whether an answer names the file that is to blame. */\n    boolean namesFile() {{\n        return {told};\n    }}\n"


def enum_class(name: str, comment: str, kind: str, members: List[Tuple[str, Number]]) -> str:
    """A class with the numbers of the header. `kind` is what an unknown number is."""
    return f"""package relkvanu;

/** {comment} Made of include/relkvanu.h by bindings/generate. */
public enum {name} {{
{constants(members)};

    private static final {name}[] ALL = values();
    private final int what;

    {name}(int what) {{
        this.what = what;
    }}

    static {name} of(int what) {{
        for ({name} it : ALL) {{
            if (it.what == what) {{
                return it;
            }}
        }}
        throw new CoordinatorException.Unknown("{kind}", what);
    }}

    /** {{@return the name in scripts, such as "{header.camel(members[0][0])}"}} */
    public String text() {{
        return ScriptNames.of(this);
    }}
{names_file(members)}}}
"""


def mode_class(name: str, comment: str, members: List[Tuple[str, Number]]) -> str:
    """A class of what a read returns."""
    listed = ",\n".join(f"    /** {sentence(it)} */\n    {member.upper()}" for member, it in members)
    cases = "".join(f"            case Header.{it.name} -> {member.upper()};\n" for member, it in members)
    return f"""package relkvanu;

/** {comment} Made of include/relkvanu.h by bindings/generate. */
public enum {name} {{
{listed};

    static {name} of(int what) {{
        return switch (what) {{
{cases}            default -> throw new CoordinatorException.Unknown("{name.lower()}", what);
        }};
    }}
}}
"""


def classes() -> Dict[str, str]:
    """The classes, by name."""
    found = {header.camel(it.name): enum_of(it) for it in header.enums().values() if it.name not in WITHOUT_CLASS}
    found["Mode"] = mode_class("Mode", "What a job is doing.", header.members("mode_"))
    found["Standing"] = mode_class("Standing", "What the number of a record is.", header.members("stands_"))
    return found


def enum_of(it: Enum) -> str:
    return enum_class(header.camel(it.name), it.comment, it.name.split("_")[-1], it.members)


# The interfaces of replies beside Reply itself, by what their names begin with.
INTERFACES = {"TICK_": "Tick", "ACK_": "Ack", "DECLINE_": "Decline", "RESTORED_": "Restore"}


def shown(name: str, fields: List[str]) -> str:
    """The text of a record with a file, whose number is unsigned."""
    told = ' + ", '.join(f'{it}=" + ' + (f"FileNumbers.toString({it})" if it == "file" else it) for it in fields)
    return f'        @Override\n        public String toString() {{\n            return "{name}[{told} + "]";\n        }}\n    '


def record(number: Number) -> str:
    name, kind = header.reply_name(number), [it for prefix, it in INTERFACES.items() if number.name.startswith(prefix)]
    fields = [(java_name(field), what) for field, _, what in number.fields()]
    told = " ".join([sentence(number), *([f"{'; '.join(f'{field}: {what}' for field, what in fields)}."] if fields else [])])
    text = f"    /** {told} */\n"
    only = [field for field, _ in fields]
    body = "\n" + shown(name, only) if "file" in only else ""
    return text + f"    record {name}({', '.join(f'long {field}' for field in only)}) implements {(kind or ['Reply'])[0]} {{{body}}}\n"


def replies() -> str:
    return "\n".join(record(it) for it in header.replies())


def cases() -> str:
    lines = [f"            case Header.{it.name} -> new Reply.{header.reply_name(it)}({', '.join(letter for _, letter, _ in it.fields())});\n"
             for it in header.replies()]
    return "".join(lines)


def reply_type(call: Call) -> str:
    it = call.reply()
    return f"Reply.{header.reply_name(it) if it else INTERFACES[call.family().upper() + '_']}"


def lines_of(text: str) -> str:
    return "".join(f"     * {it}\n" for it in textwrap.wrap(text, 136))


def method(call: Call) -> str:
    """A method of the coordinator, of which threads that wait for a call know unless the call is quiet."""
    given, passed = (f"long {java_name(call.number)}", f", {java_name(call.number)}") if call.number else ("", "")
    text = f"{documented(call.comment)}    public {reply_type(call)} {java_name(call.name)}({given}) {{\n"
    native = f"(at, out) -> Native.{java_name(call.name)}(at{passed}, out)"
    if call.has_moment() or call.is_quiet():
        return text + f"        return ({reply_type(call)}) {'timed(now, ' if call.has_moment() else 'replied('}{native});\n    }}\n"
    return text + f"        return ({reply_type(call)}) fenced(() -> handle.moved({native}));\n    }}\n"


# What calls of tasks are answered, what they take, what the library takes of each, and what is checked before.
REPLIES = {"ack": "Ack", "decline": "Decline", "restore": "Restore", "reserve": "Reserved", "forfeit": "Forfeited"}
TYPES = {**{kind: "long {}" for kind in ("moment", "term", "number", "place")}, "subtask": "int vertex, int index", "list": "long[] {}"}
PASSED = {**{kind: "{}" for kind in ("moment", "term", "number", "place", "list")}, "subtask": "vertex, index"}
CHECKS = {"subtask": "        Checks.subtask(vertex, index);\n", "list": '        Objects.requireNonNull({0}, "{0}");\n'}


def in_java(call: Function) -> Function:
    return call._replace(given=[(kind, java_name(name)) for kind, name in call.given])


def given_to(call: Function) -> str:
    """The parameters, of which the last list has the other arguments of the caller."""
    head, of_list, last = call.each(TYPES).rpartition("long[] ")
    return f"{head}long... {last}" if of_list else last


def documented(text: str) -> str:
    return f"    /**\n{lines_of(text)}     */\n" if len(text) > 128 else f"    /** {text} */\n"


def task_method(call: Function) -> str:
    made, reply = in_java(call), REPLIES[call.family()]
    how = "timed(now, " if call.has_moment() else "replied("
    text = f"{documented(call.comment)}    public Reply.{reply} {java_name(call.name)}({given_to(made)}) {{\n{made.each(CHECKS, '')}"
    return text + f"        return (Reply.{reply}) {how}(at, out) -> Native.{java_name(call.name)}(at, {made.each(PASSED)}, out));\n    }}\n"


# What reads tell: its type, and what makes it of their answer.
TOLD = {
    "number": ("long", "(what, a, b) -> a"), "enum": ("{}", "(what, a, b) -> {}.of(what)"), "choice": ("Optional<Chosen>", "(what, a, b) -> Chosen.of(what, a)"),
    "live": ("Optional<Live>", "Live::of"), "list": ("long[]", ".orElseThrow()"), "list?": ("Optional<long[]>", ""),
}


def look(call: Function) -> str:
    """A read."""
    made, name = in_java(call), java_name(call.name)
    number = f"(what, a, b) -> what == Header.{call.tells()} ? OptionalLong.of(a) : OptionalLong.empty()"
    told, value = TOLD.get(call.tells(), ("OptionalLong", number))
    is_list, of = call.tells().startswith("list"), header.camel(call.name)
    passed = made.each({kind: f"{it}, " for kind, it in PASSED.items()}, "")
    native = f"(at, {'files, ' if is_list else ''}out) -> Native.{name}(at, {passed}{'files, ' if is_list else ''}out)" if passed else f"Native::{name}"
    text = f"{documented(call.comment)}    public {told.format(of)} {name}({made.each(TYPES)}) {{\n{made.each(CHECKS, '')}"
    return text + f"        return {f'files({native}){value}' if is_list else f'call({native}, {value.format(of)})'};\n    }}\n"


def task_line(call: Function) -> str:
    made = in_java(call)
    of = {kind: [name for it, name in made.given if it == kind] for kind in TYPES}
    first, second = [*of["list"], "NONE", "NONE"][:2]
    number, now, term = (of["number"] or ["0"])[0], (of["moment"] or ["0"])[0], (of["term"] or ["NO_TERM"])[0]
    subtask = "vertex, index" if of["subtask"] else "0, 0"
    text = f"    /** {{@return the line of {'an' if call.name[0] in 'aeiou' else 'a'} {header.words(call.name)}}} */\n"
    text += f"    public static String {java_name(call.name)}({given_to(made)}) {{\n"
    return text + f"        return line(Header.CALL_{call.kind().upper()}, {subtask}, {now}, {number}, {term}, {first}, {second});\n    }}\n"


def line(call: Call) -> str:
    given = f"long {java_name(call.number)}" if call.number else ""
    passed = ("now, 0" if call.has_moment() else f"0, {java_name(call.number)}") if call.number else "0, 0"
    text = f"    /** {{@return the line of {call.named()}}} */\n"
    return text + f"    public static String {java_name(call.name)}({given}) {{\n        return line(Header.{call.kind()}, {passed});\n    }}\n"


def changed() -> str:
    """The settings with another value of each but the first."""
    text = ""
    for place, (name, is_flag, told) in enumerate(header.settings()):
        word, kind = java_name(name), "boolean" if is_flag else "long"
        text += f"    /** {{@return these settings with another value: {told}}} */\n" if place else ""
        value = f"{word} ? 1 : 0" if is_flag else word
        text += f"    public Settings with{header.camel(name)}({kind} {word}) {{\n        return with({place}, {value});\n    }}\n\n" if place else ""
    return text[:-1]


# The exceptions of codes that have a reason: name, what it is, and what the reason is called there.
EXCEPTIONS = {
    "REFUSED": ("Refused", "The coordinator refused the call.", "refusal"),
    "FENCED": ("Fenced", "The term of the task or the names refuse the call, or the coordinator has no names. After {@code SPENT} a task deletes no file.", "reason"),
    "BAD_ARGUMENT": ("BadArgument", "A value is outside its limits.", "argument"),
    "BAD_LINE": ("BadLine", "A line of a script can't be read or makes no call, or the line of a call would be too long.", "fault"),
}


def exception(code: Number, members: List[Tuple[str, Number]], kind: str) -> str:
    """An exception with its reason, and with a file if a reason may name one. Those with a file come every day."""
    name, told, word = EXCEPTIONS[code.name]
    naming = [f"{{@code {member.upper()}}}" for member, it in members if "file" in [field for field, _, _ in it.fields()]]
    given, text = f"{kind} {word}{', long file' if naming else ''}", f"{word}.text()"
    made = f"withFile({text}, {word}.namesFile(), file), HAS_TRACES" if naming else f"{text}, true"
    body = f"    /** {told} */\n    public static final class {name} extends CoordinatorException {{\n        private final {kind} {word};\n"
    body += "        private final long file;\n" if naming else ""
    body += f"\n        {name}({given}) {{\n            super({made});\n            this.{word} = {word};\n" + ("            this.file = file;\n" if naming else "") + "        }\n"
    body += f"\n        /** {{@return why}} */\n        public {kind} {word}() {{\n            return {word};\n        }}\n"
    if naming:
        body += f"\n        /** {{@return the file that is to blame, unsigned; 0 unless it is {' or '.join(naming)}}} */\n"
        body += "        public long file() {\n            return file;\n        }\n"
    return body + "    }\n"


def exceptions() -> str:
    found = {code.name: (code, of) for code, of in header.codes() if of and code.name in EXCEPTIONS}
    return "\n".join(exception(*(found[name][0], found[name][1].members, f"relkvanu.{header.camel(found[name][1].name)}")) for name in EXCEPTIONS)


def lists_of(name: str, fields: List[str], indent: str) -> str:
    """What a record with lists has in it."""
    def overriding(head: str, told: str) -> str:
        return f"@Override\npublic {head} {{\n    return {told};\n}}\n\n"
    text = f"/** Copies the lists. */\npublic {name} {{\n" + "".join(f"    {it} = {it}.clone();\n" for it in fields) + "}\n\n"
    text += "".join(f"/** {{@return a copy}} */\n{overriding(f'long[] {it}()', f'{it}.clone()')}" for it in fields)
    text += overriding("boolean equals(Object other)", f"other instanceof {name} it && " + " && ".join(f"Arrays.equals({it}, it.{it})" for it in fields))
    text += overriding("int hashCode()", " + ".join([*(f"31 * Arrays.hashCode({it})" for it in fields[:-1]), f"Arrays.hashCode({fields[-1]})"]))
    told = ' + ", '.join(f'{it}=" + FileNumbers.toString({it})' for it in fields)
    text += overriding("String toString()", f'"{name}[{told} + "]"')
    return textwrap.indent(text.rstrip("\n") + "\n", indent)


def generated() -> Dict[str, Dict[str, str]]:
    """What is made, by file and place."""
    return {
        "Reply.java": {"the replies": replies(), "the list of files": lists_of("Taken", ["files"], " " * 8)},
        "Line.java": {"the list of the shape": lists_of("Job", ["shape"], " " * 8)},
        "Garbage.java": {"the lists of files": lists_of("Garbage", ["garbage", "unissued"], " " * 4)},
        "CoordinatorException.java": {"the exceptions with reasons": exceptions()}, "Answers.java": {"what tells the replies": cases()},
        "Coordinator.java": {
            "the calls of one number": "\n".join(method(it) for it in calls.plain()),
            "the calls of tasks": "\n".join(task_method(it) for it in calls.of_tasks()),
        },
        "Settings.java": {"the settings with another value": changed()},
        "Reads.java": {"the reads": "\n".join(look(it) for it in calls.looks())},
        "Lines.java": {"the lines of calls": "\n".join([*(line(it) for it in calls.calls()), *(task_line(it) for it in calls.of_tasks("advance"))])},
    }
