"""Reads the declarations of .antt files, and the types and constants of .rt files."""
import re
from collections import defaultdict
from pathlib import Path

from generator.antt import Parser, need
from generator.names import FIELDS, RESERVED, TYPES, VARIANTS, WITNESSES


def coq_name(name):
    return name + "_" if name in RESERVED else name.replace("-", "_")


class Decl:
    """A declaration: a `def`, a `record`, a `data` type, a `const`, a `law` or an `example`. What it declares is read when something cites it
    (meaning.py)."""

    def __init__(self, what, name, source, line, comment, text=""):
        self.what, self.name, self.source, self.line, self.comment, self.text = what, name, source, line, comment, text
        self.clauses, self.cites, self.variables, self.params, self.rows = [], [], [], [], []
        self.fields, self.notes, self.parts, self.opens, self.variants, self.arguments, self.updated = {}, {}, {}, {}, {}, {}, set()
        self.is_read = self.is_prop = self.is_opened = False
        self.type, self.alias, self.coq, self.is_witness = None, None, coq_name(name), bool({name, f"{Path(source.path).stem}.{name}"} & WITNESSES)
        self.letters = FIELDS.get(name, name)
        self.module = VARIANTS.get(f"{source.crate}/{name}", VARIANTS.get(name)) if what == "data" else None  # of its variants

    def where(self):
        return self.source.path, self.line

    def parser(self, text, line):
        return Parser(text, self.source.path, line, self.source.aliases)


class Source:
    """A file: its declarations, and what its names stand for."""

    def __init__(self, path):
        self.path, self.crate, self.is_rust = path, path.split("/")[1], path.endswith(".rt")
        self.decls, self.names, self.aliases, self.comment, self.crates = [], {}, {}, [], []
        self.uses = {name: ("Rattle.std.", name) for name in ("⊥", "Unit", "⊤")}

    def add(self, *args):
        decl = self.names[args[1]] = Decl(args[0], args[1], self, *args[2:])
        self.decls.append(decl)

    def use(self, text, line):
        """Reads `use MODULE.{NAME, MODULE.NAME, NAME as NAME}` or `use MODULE as NAME`."""
        match = re.fullmatch(r"(?:pub |ghost )*use ([\w.]+?)(?:\.\{(.*)\}| as (\w+));?", text.strip())
        need(match, (self.path, line), f"unknown use: {text}")
        module, names, alias = match.groups()
        if alias:
            self.aliases[alias] = module
        for whole, here in re.findall(r"([^ ,]+)(?: as ([^ ,]+))?", names or ""):
            at, _, name = f"{module}.{whole}".rpartition(".")
            self.uses[here or name] = (at, name)


class Library:
    """All sources below ROOT/crates, each read once."""

    def __init__(self, root):
        self.root, self.sources, self.words, self.models = Path(root), {}, {}, defaultdict(dict)
        words = re.findall(r"^(\S+) : (.*) = (\S+)$", Path(__file__).with_name("words.txt").read_text(), re.M)
        self.standard = {name: (type_, coq) for name, type_, coq in words}
        for path in sorted(self.root.glob("crates/*/src/*.rt")):
            self.find_models(str(path.relative_to(self.root)), path.read_text())

    def find_models(self, path, text):
        """Notes of each Rust type, by crate, the file that declares it, and what stands for it in specifications: itself, or its model."""
        crate = path.split("/")[1]
        for name in re.findall(r"^pub (?:enum|struct) (\w+)", text, re.M):
            self.models[name].setdefault(crate, (path, name))
        for name, value in re.findall(r"^impl Model for (\w+) \{.*?ghost Value = \{ (.*?) \};", text, re.M | re.S):
            self.models[name][crate] = (path, value)

    def load(self, path, where=("generate", 0)):
        if path not in self.sources:
            need((self.root / path).exists(), where, f"no such file: {path}")
            self.sources[path] = source = Source(path)
            (read_rust if source.is_rust else read_antt)(source, (self.root / path).read_text())
        return self.sources[path]

    def resolve(self, source, name, where):
        """What a name of a source stands for: a declaration, a variant as its type and its name, or a word of the standard library."""
        if name in source.names:
            return source.names[name]
        head, _, last = name.rpartition(".")
        module, last = (source.aliases.get(head), last) if head else source.uses.get(name, (None, name))
        need(module, where, f"unknown name: {name}")
        if module.startswith("Rattle.std."):
            need(last in self.standard or last in TYPES, where, f"{last} of the standard library is not in the table")
            return last
        _, crate, _, *steps = module.split(".")
        if steps[0] != "declared":
            return self.resolve(self.load(f"crates/{crate}/specs/{'/'.join(steps)}.antt", where), last, where)
        found = self.load(f"crates/{crate}/src/{steps[1]}.rt", where)
        return (self.resolve(found, steps[2], where), last) if steps[-1] == "TheVariants" else self.resolve(found, last, where)

    def model(self, source, name, where):
        """What stands for a Rust type in specifications, and the source that says so."""
        found = self.models[name]
        crates = [crate for crate in found if crate == source.crate] or [crate for crate in found if crate in source.crates] or list(found)
        need(len(crates) == 1, where, f"the type {name} is not declared once")
        path, value = found[crates[0]]
        return self.load(path, where), value


# Lines of comment, and the line behind them with those that are indented or close something.
BLOCK = re.compile(r"^((?:--.*\n)*)(.*(?:\n[ )}].*)*)", re.M)
# The first line of a declaration, or of one of its clauses.
BEGIN = re.compile(r"(?:(?:abbrev|unfoldable) )?(?:pub )?(record |data )?([^\s:(]+)(\s*:)?")


def read_antt(source, text):
    """Finds the declarations of a file: each begins at a line's first column, and goes on in indented lines."""
    heading = []  # comment before an empty line
    for match in BLOCK.finditer(text):
        line, block = text.count("\n", 0, match.start(2)) + 1, match[2]
        comment = [row[2:].strip() for row in match[1].splitlines()]
        if re.match(r"(pub )?use ", block):
            source.use(block, line)
            source.comment = source.comment or comment
        elif block.strip():
            begin(source, block, line, [*heading, *comment])
        heading = [] if block.strip() else [*comment, ""] if comment else heading
    for decl in [decl for decl in source.decls if decl.what == "data"]:
        source.names.update({row.split()[0]: (decl, row.split()[0]) for row in decl.text.split("\n")[1:]})


def begin(source, block, line, comment):
    """Adds the declaration or clause that begins in this line."""
    match, last = BEGIN.match(block), source.decls[-1] if source.decls else None
    if block.startswith("unfolding ") and last:
        return  # what a proof unfolds
    need(match, (source.path, line), f"unknown line: {block}")
    kind, name, is_typed = match.groups()
    if not kind and last and last.name == name and not is_typed:
        last.clauses.append((line, block))
        return
    need(kind or is_typed, (source.path, line), f"unknown declaration: {block}")
    source.add((kind or "def").strip(), name, line, comment, block[match.start(2):])


def read_rust(source, text):
    """Finds the types and constants of a file, and what its names stand for."""
    source.crates = re.findall(r"^use (\w+)::", text, re.M)
    for match in re.finditer(r"^ *ghost (use .*);", text, re.M):
        source.use(match[1], text[:match.start()].count("\n") + 1)
    for match in re.finditer(r"^pub (const|enum|struct) (\w+)", text, re.M):
        (kind, name), before, end = match.groups(), text[:match.start()], match.end()
        notes = re.search(r"((?:^ *///.*\n)*)(?:^ *#\[.*\n)*\Z", before, re.M)[1]
        body = "" if text[end] in ";(" else text[end:text.index(";\n" if kind == "const" else "\n}\n", end)]
        if kind != "const":
            body = f"{name} : Type 0 where{as_members(body.removeprefix(' {'), name)}"
        what = {"const": "const", "enum": "data", "struct": "record"}[kind]
        source.add(what, name, before.count("\n") + 1, [row.strip()[4:] for row in notes.splitlines()], body)


def as_members(body, type_):
    """The fields or variants of a Rust type as .antt files write them, in the same lines."""
    def as_type(text):
        return text.replace(": ", " : ").replace("<", " (").replace(">", ")")

    def variant(match):
        said = [f"  -- {name}: {' '.join(re.findall('/// ?(.*)', docs))}\n" for docs, name in re.findall(r"((?: +///.*\n)+) +(\w+):", match[3] or "")]
        args = [f"({as_type(each.strip())}) → " for each in re.sub("///.*", "", match[2] or match[3] or "").split(",") if each.strip()]
        return f"{''.join(said)}  {match[1]} : {''.join(args)}{type_}" + "\n" * (match[0].count("\n") - len(said))
    body = re.sub(r"^ *#\[(?:default|error)\b.*", "", body, flags=re.M)
    body = re.sub(r"^    ///", "  --", body, flags=re.M)
    body = re.sub(r"^    (?:pub )?(\w+): (.*),$", lambda it: f"  pub {it[1]} : {as_type(it[2])}", body, flags=re.M)
    return re.sub(r"^    (\w+)(?:\((.*)\)| \{([^}]*)\})?,$", variant, body, flags=re.M)
