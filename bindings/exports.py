"""Writes the crate whose functions the static library exports: one for each function of a library here that C calls, with the same contract, which
calls that function and does nothing else. A static library exports only functions of its own crate, and the proof of this one is short. So relkvanu is
proved once, as any library."""
import os
import re

# An exported function: its module's text up to the line that opens its body, its name and its parameters.
EXPORT = re.compile(r'^#\[unsafe\(no_mangle\)\]\n(?:#\[tactic\([^\n]*\n)?(pub extern "C" fn (\w+)\(([^)]*)\).*?)\n\{$', re.M | re.S)
# The types of parameters and results.
TYPE = re.compile(r"(?<=[ &(\[])[A-Z]\w+")


def ghosts(text, of):
    """The lines that import what the contracts of these functions name: a name, an operator, or a module by another name."""
    words = set(re.findall(r"\w+", "".join(it for it, _, _ in of)))

    def is_named(item):
        return not set(re.findall(r"\w+$", item)) - words

    lines = ""
    for path, items, other in re.findall(r"^ghost use ([\w.]+?)(?:\.\{(.*)\}| as (\w+));$", text, re.M):
        named = [it for it in items.split(", ") if it and is_named(it)]
        lines += f"ghost use {path}.{{{', '.join(named)}}};\n" if named else f"ghost use {path} as {other};\n" if other in words else ""
    return lines


def imports(of, declared):
    """The lines that import the types of these functions."""
    types = {it for text, _, _ in of for it in TYPE.findall(text.partition("\n    ensures ")[0])}
    return "".join(f"use {declared.get(it, 'std::alloc')}::{it};\n" for it in sorted(types))


def function(library, module, text, name, parameters):
    given = ", ".join(re.findall(r"(\w+): ", parameters))
    return f"#[unsafe(no_mangle)]\n{text}\n{{\n    {library}::{module}::{name}({given})\n}}\n"


def write(sources, to):
    """Makes the folder `to`, and writes into it what exports the functions of these libraries, each by its name and the folder of its sources. Its root is lib.rt."""
    os.makedirs(to)
    texts = {}
    for library, source in sources.items():
        for it in sorted(os.listdir(source)):
            with open(f"{source}/{it}", encoding="utf-8") as file:
                texts[library, it.removesuffix(".rt")] = file.read()
    declared = {it: f"{library}::{module}" for (library, module), text in texts.items() for it in re.findall(r"^pub struct (\w+)", text, re.M)}
    found = {key: EXPORT.findall(text) for key, text in texts.items()}
    modules = {key: found[key] for key in texts if found[key]}
    for (library, module), of in modules.items():
        with open(f"{to}/{module}.rt", "w", encoding="utf-8") as file:
            text = texts[library, module]
            file.write("\n".join([ghosts(text, of), imports(of, declared), *(function(library, module, *it) for it in of)]))
    with open(f"{to}/lib.rt", "w", encoding="utf-8") as file:
        file.write("#![tactic(auto)]\n\n" + "".join(f"mod {it};\n" for it in sorted(module for _, module in modules)))
