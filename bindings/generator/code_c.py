"""The texts of answers in C, for bindings/c/text.c, and the functions that take null, bindings/c/nulls.c."""
from typing import Any, Dict, List, Tuple

from generator import calls, header
from generator.header import parameters, pointed

NULLS = """/* The functions of the library whose lists may be null with length 0, and relkvanu_close, which may be given NULL. Each passes a list that
 * is empty as one element, which nobody reads or writes, because the proved functions take no null pointer. bindings/build_archive gives those
 * the names proved_relkvanu_.., which no shared library shows. Not proved: bindings/c/tests/empty.c tests it.
 * Made from include/relkvanu.h by bindings/generate: change the header, and run that. */
/* clang-format off */
#include "../../include/relkvanu.h"

/* The proved function of this name. A sanitizer sees a null that it is given. */
#define PROVED(function) __attribute__((visibility("hidden"), nonnull)) __typeof__(function) proved_##function

static const uint64_t element;

#define LIST(list) list##_len != 0 ? list : (void *)&element, list##_len

PROVED(relkvanu_close);

void relkvanu_close(relkvanu *handle) {
    if (handle != NULL) {
        proved_relkvanu_close(handle);
    }
}
"""
# The function that takes null itself.
TAKES_NULL = "relkvanu_answer_text"


def texts() -> List[Tuple[str, List[Tuple[str, str]], str]]:
    """Of each code: its name, the texts of what it may have, and the text of one that has nothing."""
    enums, found = header.enums(), []
    for _, code in enums["code"].members:
        enum = enums["reply"] if code.name == "DONE" else header.told_by(code.name)
        if enum is None:
            found.append((code.name, [], header.form_of(code, None, code.name, code)))
        else:
            found.append((code.name, [(number.name, header.form_of(code, enum, member, number)) for member, number in enum.members], ""))
    return found


def function(code: str, of: List[Tuple[str, str]]) -> str:
    cases = "".join(f'    case RELKVANU_{name}: return "{form}";\n' for name, form in of)
    return f"static const char *{code.lower()}_text(uint32_t what) {{\n    switch (what) {{\n{cases}    default: return UNKNOWN;\n    }}\n}}\n\n"


def c_type(node: Any) -> str:
    name, depth, is_const = pointed(node)
    return f"{'const ' if is_const else ''}{name} {'*' * depth}"


def with_lists(name: str, function: Any) -> str:
    """The function in C that passes the lists of one that is proved; nothing if it has none."""
    kinds = dict(parameters(function))
    lists = [it for it in kinds if f"{it}_len" in kinds]
    if not lists or name == TAKES_NULL:
        return ""
    given = ", ".join(c_type(kind) + it for it, kind in kinds.items())
    lengths = [f"{it}_len" for it in lists]
    passed = ", ".join(f"LIST({it})" if it in lists else it for it in kinds if it not in lengths)
    return f"\nPROVED({name});\n\n{c_type(function.type)}{name}({given}) {{\n    return proved_{name}({passed});\n}}\n"


def nulls(functions: Dict[str, Any]) -> str:
    return NULLS + "".join(with_lists(name, it) for name, it in functions.items())


STORE_KINDS = """/* Which kinds of calls there are for a store. Made from include/relkvanu.h by bindings/generate: change the header, and run that. */
#ifndef RKS_KINDS_H
#define RKS_KINDS_H

#include "../../../include/relkvanu.h"

"""


def whether(name: str, told: str, kinds: List[str]) -> str:
    """A function that says whether a kind is one of these."""
    cases = "".join(f"    case RELKVANU_{it}:\n" for it in kinds[:-1]) + f"    case RELKVANU_{kinds[-1]}: return true;\n"
    body = f"    switch (kind) {{\n{cases}    default: return false;\n    }}\n"
    return f"/* {told} */\nstatic inline bool {name}(uint32_t kind) {{\n{body}}}\n\n"


def store_kinds(functions: Dict[str, Any]) -> str:
    """Which kinds have a moment, and which a store makes."""
    kinds = [(member, number.name) for member, number in header.enums()["call_kind"].members]
    timed = [number for member, number in kinds if "now" in dict(parameters(functions[f"relkvanu_{member}"]))]
    text = STORE_KINDS + whether("rks_has_moment", "Whether a call has a moment.", timed)
    return text + whether("rks_is_made", "Whether a store makes it. The others are reads.", [it for member, it in kinds if member not in calls.READS]) + "#endif\n"


def synopsis(functions: Dict[str, Any]) -> str:
    """The functions for the manual page, in mdoc."""
    text = ""
    for name, it in functions.items():
        result, given = c_type(it.type).strip(), [f"{c_type(kind)}{parameter}" for parameter, kind in parameters(it)]
        quoted = f'"{result}"' if " " in result else result
        text += f".Ft {quoted}\n.Fn {name} " + " ".join(f'"{of}"' for of in given or ["void"]) + "\n"
    return text


def generated() -> Dict[str, str]:
    found = texts()
    text = "".join(function(code, of) for code, of, _ in found if of)
    text += "static const char *text_of(uint32_t code, uint32_t what) {\n    switch (code) {\n"
    for code, of, alone in found:
        told = f"{code.lower()}_text(what)" if of else f'what == 0 ? "{alone}" : UNKNOWN'
        text += f"    case RELKVANU_{code}: return {told};\n"
    return {"the texts": text + "    default: return UNKNOWN;\n    }\n}\n"}
