"""What the service and its clients know of the calls that take one number or none: kinds, lines, the forms of requests and of answers."""
import json
import textwrap
from typing import Any, Dict, List, Tuple

from generator import calls, code_python, code_rust, header
from generator.calls import Call
from generator.header import Number, camel

# The members of requests that have a check of their own. Any other number is at most 2^53.
CHECKED = {"id": "members.id()?", "file": "members.file()?"}
SCHEMAS = {"id": {"$ref": "#/components/schemas/Id"}, "file": {"$ref": "#/components/schemas/File"}}
# What the client in Python calls a number, and the call that it leaves to the service.
PARAMETERS = {"id": "record"}
TICK = "tick"


def number_of(call: Call) -> str:
    """The number that a request gives. The service itself gives a moment."""
    return "" if call.number is None or call.has_moment() else call.number


def variant(call: Call) -> str:
    """A call as a pattern, and as a value if its number has this name."""
    return f"Call::{camel(call.name)}" + (f" {{ {number_of(call)} }}" if number_of(call) else "")


def declared(call: Call) -> str:
    return camel(call.name) + (f" {{ {number_of(call)}: u64 }}" if number_of(call) else "") + ",\n"


def to_library(call: Call) -> str:
    number = "" if call.number is None else " { now }" if call.has_moment() else f" {{ {call.number}: *{call.number} }}"
    return f"{variant(call)} => C::{camel(call.name)}{number},\n"


def of_library(call: Call) -> str:
    given = f" {{ {call.number} }}" if call.number else ""
    return f"C::{camel(call.name)}{given} => ({'now' if call.has_moment() else 0}, {variant(call)}),\n"


def read(call: Call) -> str:
    number = number_of(call)
    how = CHECKED.get(number, f'members.number("{number}", 0, GREATEST)?')
    return f'"{call.name}" => Call::{camel(call.name)}{f" {{ {number}: {how} }}" if number else ""},\n'


def answered(call: Call, reply: Number) -> str:
    """The JSON of an answer."""
    it = code_rust.Reply(reply)
    pattern = it.of("{name}") if reply.name not in code_rust.TUPLES else f"{it.name}({it.fields[0][0]})"
    fields = "".join(f', "{name}": {f"{name}.to_string()" if name == "file" else name}' for name, _, _ in it.fields)
    return f'Answer::{pattern} => json!({{"{call.name}": "{word(call, reply)}"{fields}}}),\n'


def word(call: Call, reply: Number) -> str:
    """What an answer says of a call."""
    return reply.name.lower().removeprefix(f"{call.name}_")


def with_own_reply() -> List[Tuple[Call, Number]]:
    """The calls with one reply. Those of reports have a form of their own."""
    return [(call, it) for call, it in ((call, call.reply()) for call in calls.stored()) if it is not None]


# Calls that the service does not take.
NOT_TAKEN = ("configure", "advance")


def names() -> str:
    """The names of the calls of requests, in words: first those of tasks."""
    kinds = [member for member, _ in header.enums()["call_kind"].members if member not in ("ack", "decline", "fence", *NOT_TAKEN, *calls.READS)]
    *most, last = ["ack", "decline", *kinds]
    return f'const CALLS: &str = "{", ".join(most)} and {last}";\n'


def sent(call: Call) -> str:
    """The JSON that the client in Rust sends."""
    number = number_of(call)
    value = f"{number}.to_string()" if number == "file" else number
    return f'{variant(call)} => json!({{"call": "{call.name}"{f", {chr(34)}{number}{chr(34)}: {value}" if number else ""}}}),\n'


def in_python(call: Call) -> str:
    number = number_of(call)
    given = PARAMETERS.get(number, number)
    value = f"str({given})" if number == "file" else given
    body = f'{{"call": "{call.name}"{f", {chr(34)}{number}{chr(34)}: {value}" if number else ""}}}'
    told = code_python.wrapped(f'"""{call.comment}"""', "    ")
    return f'def {call.name}({given}):\n{told}    return {body}\n'


def exports() -> str:
    listed = ", ".join(f'"{it.name}"' for it in calls.plain() if it.name != TICK)
    return "__all__ += [\n" + "\n".join(textwrap.wrap(f"{listed},", 130, initial_indent="    ", subsequent_indent="    ")) + "\n]\n"


def of_all(make: Any) -> str:
    return "".join(make(it) for it in calls.plain())


def in_rust() -> Dict[str, Dict[str, str]]:
    """What is made in Rust, by file and place."""
    return {
        "src/model/call.rs": {
            "the calls of one number": of_all(declared),
            "the names of calls of one number": of_all(lambda it: f'Call::{camel(it.name)}{" { .. }" if number_of(it) else ""} => "{it.name}",\n'),
        },
        "src/model/lines.rs": {"what writes the calls of one number": of_all(to_library), "what reads the calls of one number": of_all(of_library)},
        "src/model/outcome.rs": {"the answers to calls of one number": "".join(answered(*it) for it in with_own_reply())},
        "src/http/wire.rs": {"the names of calls": names(), "the calls of one number": of_all(read)},
        "client/rust/src/call.rs": {"the calls of one number": of_all(declared), "the requests of calls of one number": of_all(sent)},
    }


def python_client() -> Dict[str, str]:
    functions = [in_python(it) for it in calls.plain() if it.name != TICK]
    return {"the names of calls of one number": exports(), "the calls of one number": "\n\n".join(functions)}


def schema(properties: Dict[str, Any], required: List[str]) -> Dict[str, Any]:
    return {"type": "object", "properties": properties, "required": required, "additionalProperties": False}


def request_schema(call: Call) -> Dict[str, Any]:
    number = number_of(call)
    given = {number: SCHEMAS.get(number, {"type": "integer", "minimum": 0, "maximum": 1 << 53})} if number else {}
    return schema({"call": {"type": "string", "enum": [call.name]}, **given}, ["call", *given])


def answer_schema(call: Call, reply: Number, more: Dict[str, Any]) -> Dict[str, Any]:
    """The form of an answer, with what the service tells beside the reply."""
    fields = {name: SCHEMAS["file"] if name == "file" else {"type": "integer"} for name, _, _ in reply.fields()}
    own = {"seq": {"type": "integer"}, call.name: {"type": "string", "enum": [word(call, reply)]}, **fields}
    return schema({**own, **{name: it for name, it in more.items() if name not in own}}, sorted(own))


def replaced(forms: List[Any], is_it: Any, make: Any, end: int) -> None:
    """Replaces the form that is it, or puts a new one to this place from the end."""
    (found,) = [place for place, it in enumerate(forms) if is_it(it["properties"])] or [None]
    if found is None:
        forms.insert(len(forms) - end, make({}))
    else:
        forms[found] = make(forms[found]["properties"])


# The forms of an answer that say why no call was made, at the end of the list.
FAULTS = 4
# How long a line of the description may be.
WIDTH = 140


def laid_out(value: Any, indent: str = "", before: int = 0) -> str:
    """JSON, in which an object or a list stands on one line if it fits there behind so many characters."""
    text = json.dumps(value)
    if not isinstance(value, (dict, list)) or not value or len(indent) + before + len(text) < WIDTH:
        return text
    inner = indent + " "
    if isinstance(value, list):
        return "[\n" + ",\n".join(inner + laid_out(it, inner) for it in value) + f"\n{indent}]"
    heads = {json.dumps(name) + ": ": it for name, it in value.items()}
    return "{\n" + ",\n".join(inner + head + laid_out(it, inner, len(head)) for head, it in heads.items()) + f"\n{indent}}}"


def description(text: str) -> str:
    """The description of the API, with the forms of these calls and of their answers."""
    told = json.loads(text)
    forms = told["components"]["schemas"]
    for call in calls.plain():
        replaced(forms["Call"]["oneOf"], lambda it: it["call"]["enum"] == [call.name], lambda _: request_schema(call), 0)
    for call, reply in with_own_reply():
        replaced(forms["Answer"]["anyOf"], lambda it: call.name in it, lambda more: answer_schema(call, reply, more), FAULTS)
    return laid_out(told) + "\n"
