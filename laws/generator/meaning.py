"""Reads what a declaration declares, and finds the types of its expressions: they say which record a field is of."""
import re

from generator.antt import Expr, Parser, need, within
from generator.names import RUST, TYPES, WITNESSES
from generator.sources import Decl, Source


class Unknown:
    """A type that is not known yet."""
    found = None


class Type:
    """A data type, a record, a word of the library, a type variable, → or ×, of these arguments. Some have a name: a declaration, or the fact that
    it is."""

    def __init__(self, head, *args, name=None):
        self.head, self.args, self.name = head, args, name


NAT, BOOL, PROP = Type("ℕ"), Type("Bool"), Type("Prop")


def known(type_):
    """The type, as far as it is known."""
    while isinstance(type_, Unknown) and type_.found is not None:
        type_ = type_.found
    return type_


def arrow(args, result):
    for each in reversed(args):
        result = Type("→", each, result)
    return result


def taken(type_, where, what):
    """What a function takes, and what it gives."""
    type_ = known(type_)
    need(isinstance(type_, Type) and type_.head == "→", where, f"too many {what}")
    return type_.args


def unify(a, b, where):
    a, b = sorted([known(a), known(b)], key=lambda it: isinstance(it, Type))  # what is not known comes first
    if isinstance(a, Unknown):
        a.found = None if a is b else b
    else:
        need(a.head == b.head and len(a.args) == len(b.args), where, "types do not fit")
        for x, y in zip(a.args, b.args):
            unify(x, y, where)


def put_in(type_, given):
    """The type with these in the place of its variables."""
    type_ = known(type_)
    if isinstance(type_, Unknown) or not given:
        return type_
    return given.get(type_.head) or Type(type_.head, *[put_in(each, given) for each in type_.args], name=type_.name)


# The types of what operators take and give. The others are of numbers, or of any type.
OPERANDS = {"<": (NAT, NAT, PROP), "≤": (NAT, NAT, PROP), **dict.fromkeys("→×⊎↔", (PROP, PROP, PROP)), "&&": (BOOL, BOOL, BOOL), "||": (BOOL, BOOL, BOOL),
            "==": (NAT, NAT, BOOL)}


class Scope:
    """The names of one declaration: those of its source, its type variables, and what is bound."""

    def __init__(self, library, decl, source=None):
        self.library, self.decl, self.source, self.variables, self.values = library, decl, source or decl.source, [], set()
        self.is_rust = decl.source.is_rust and decl.what != "law" and not source

    def look(self, found):
        """What a name stands for. A declaration is read."""
        target = self.library.resolve(self.source, found.args[0], found.where)
        cited = target[0] if isinstance(target, tuple) else target
        if isinstance(cited, Decl):
            read(self.library, cited)
            self.decl.cites.append(cited)
        return target

    def type(self, found, bound=None):
        """The type that an expression is. A fact may speak of what is bound."""
        type_ = self.as_type(found) or bound is not None and Type("proof", name=found)
        need(type_, found.where, f"unknown type ({found.kind})")
        if bound is not None and isinstance(type_.name, Expr):
            self.infer(type_.name, bound)
        return type_

    def is_witness(self, found):
        """Whether an expression is a fact whose data other statements take, or a function that gives one."""
        while found.kind == "all" or found.kind == "op" and found.args[0] == "→":
            found = found.args[2]
        head = found.args[0] if found.kind == "app" else found
        return head.kind == "var" and head.args[0].rpartition(".")[2] in {each.rpartition(".")[2] for each in WITNESSES} and self.look(head).is_witness

    def as_type(self, found):
        """The type that an expression is, or None: then it is a proposition."""
        head = found.args[0] if found.kind == "app" else found
        if head.kind == "var" and self.is_witness(head):
            found.target = Type(self.look(head), name=found)
            return found.target
        if found.kind == "var":
            return self.named_type(found)
        if found.kind == "type":
            return PROP
        if found.kind == "app":
            head = self.as_type(head)
            return head and Type(head.head, *[self.type(each) for each in found.args[1]])
        if found.kind == "op" and found.args[0] in "→×" or found.kind == "all" and not found.args[3]:
            proof = self.is_witness(found) and Type("proof", name=found.args[1])
            left = self.as_type(found.args[1]) or proof
            right = left and self.as_type(found.args[2])
            whole = right and (Type("×", left, right) if found.args[0] == "×" else arrow([left] * len(found.args[0]), right))
            return Type(whole.head, *whole.args, name=found if proof else None) if whole else None
        return None

    def named_type(self, found):
        name = found.args[0]
        if name in self.variables:
            return Type(name)
        if self.is_rust:
            source, value = (None, RUST[name]) if name in RUST else self.library.model(self.source, name, found.where)
            return Scope(self.library, self.decl, source).type(Parser(value, *found.where).whole()) if source else Type(value)
        target = None if name in self.values else self.look(found)
        if isinstance(target, str) and target in TYPES or isinstance(target, Decl) and target.what in ("data", "record") and not target.is_prop:
            return Type(target)
        if isinstance(target, Decl) and target.alias:
            return Type(target.alias.head, *target.alias.args, name=target)
        return None

    def scheme(self, found):
        """The type below its type variables, which are noted."""
        while found.kind == "all" and found.args[3]:
            names, sort, found, _ = found.args
            need(sort.kind == "type" and not {*names} & {*TYPES}, found.where, "an implicit argument that is no type")
            self.variables += names
        return found

    # ---- expressions

    def infer(self, found, bound, want=None):
        """The type of an expression, which has to be `want`. Notes in the expression what its names stand for."""
        want = want or Unknown()
        type_ = getattr(self, "infer_" + found.kind)(found, found.args, bound, want)
        unify(type_, want, found.where)
        return type_

    def infer_num(self, found, args, bound, want):
        return NAT

    def infer_nil(self, found, args, bound, want):
        return Type("List", Unknown())

    def infer_type(self, found, args, bound, want):
        need(False, found.where, "a type as a value")

    def infer_var(self, found, args, bound, want):
        if args[0] in bound:
            return bound[args[0]]
        target = found.target = self.look(found)
        if isinstance(target, tuple):
            need(target[1] in target[0].variants, found.where, f"no variant {target[1]}")
            return arrow(target[0].variants[target[1]], Type(target[0]))
        decl = self.library.words.get(target) if isinstance(target, str) else target
        need(decl and decl.type, found.where, f"{args[0]} as a value")
        return put_in(decl.type, {name: Unknown() for name in decl.variables})

    def infer_app(self, found, args, bound, want):
        """Functions that are arguments come last: then the types of what they take are known."""
        type_, late = self.infer(args[0], bound), []
        for each in args[1]:
            takes, type_ = taken(type_, found.where, "arguments")
            if each.kind == "lam":
                late.append((each, takes))
            else:
                self.infer(each, bound, takes)
        unify(type_, want, found.where)
        for each, takes in late:
            self.infer(each, bound, takes)
        return type_

    def infer_lam(self, found, args, bound, want):
        types, result = {name: Unknown() for name in args[0]}, Unknown()
        whole = arrow(list(types.values()), result)
        unify(whole, want, found.where)
        self.infer(args[1], {**bound, **types}, result)
        return whole

    def infer_let(self, found, args, bound, want):
        (name,), type_, value, body = args
        return self.infer(body, {**bound, name: self.infer(value, bound, self.type(type_) if type_ else None)}, want)

    def infer_if(self, found, args, bound, want):
        self.infer(args[0], bound, BOOL)
        return self.infer(args[2], bound, self.infer(args[1], bound, want))

    def infer_elim(self, found, args, bound, want):
        value = self.infer(args[0], bound)
        for pattern, each in args[1]:
            self.infer(each, {**bound, **self.pattern(pattern, value)}, want)
        return want

    def infer_tuple(self, found, args, bound, want):
        need(len(args) == 2, found.where, "a tuple of more than two")
        return Type("×", *[self.infer(each, bound) for each in args])

    def infer_record(self, found, args, bound, want):
        want, names = known(want), {name for name, _ in args[0]}
        records = [each for source in list(self.library.sources.values()) for each in source.decls if each.what == "record"]
        decls = [each for each in records if {*re.findall(r"^  pub (\w+) :", each.text, re.M)} == names and (isinstance(want, Unknown) or want.head is each)]
        need(len(decls) == 1, found.where, f"which record has the fields {sorted(names)}?")
        found.target = decl = decls[0]
        read(self.library, decl)
        self.decl.cites.append(decl)
        given = {name: Unknown() for name in decl.variables}
        for name, each in args[0]:
            self.infer(each, bound, put_in(decl.fields[name], given))
        return Type(decl, *given.values())

    def infer_update(self, found, args, bound, want):
        type_ = known(self.infer(args[1], bound, want))
        found.target = decl = type_.head if isinstance(type_, Type) else None
        need(isinstance(decl, Decl) and decl.what == "record" and not decl.variables, found.where, "an update of what is no record")
        for name, each in args[0]:
            need(name in decl.fields, found.where, f"no field {name}")
            self.infer(each, bound, decl.fields[name])
            decl.updated.add(name)
        return type_

    def infer_proj(self, found, args, bound, want):
        value, name = args
        datum = f"{value.args[0]}_{name}" if value.kind == "var" else None
        if datum in bound and value.args[0] not in bound:  # of a fact whose data are this record's too
            found.kind, found.args = "var", [datum]
            return bound[datum]
        type_ = known(self.infer(value, bound))
        need(isinstance(type_, Type), found.where, f"the type before .{name} is not known")
        decl, side = type_.head, {"0": 0, "1": 1}.get(name)
        is_pair = decl == "×" or isinstance(decl, Decl) and decl.what == "def"  # a fact that is a definition is a pair of facts
        if side is not None and is_pair:
            found.target = ("fst", "snd")[side]
            return type_.args[side] if decl == "×" else Type(decl.rows[-1][1].args[1 + side].args[0].target)
        need(isinstance(decl, Decl) and decl.what == "record" and name in decl.fields, found.where, f"no field {name}")
        found.target = decl
        return put_in(decl.fields[name], dict(zip(decl.variables, type_.args)))

    def infer_op(self, found, args, bound, want):
        item = Unknown()
        items = Type("List", item)
        of_any = {"≡": (item, item, PROP), "≢": (item, item, PROP), "∷": (item, items, items), "++": (items, items, items)}
        on_left, on_right, gives = of_any.get(args[0]) or OPERANDS.get(args[0], (NAT, NAT, NAT))
        self.infer(args[1], bound, on_left)
        self.infer(args[2], bound, on_right)
        return gives

    def infer_all(self, found, args, bound, want):
        """(x : A) → B, and (x : A) × B: propositions."""
        names, type_, body, is_implicit = args
        need(not is_implicit, found.where, "an implicit argument in a proposition")
        found.target = self.type(type_, bound)
        self.infer(body, {**bound, **dict.fromkeys(names, found.target)}, PROP)
        return PROP

    infer_some = infer_all

    def pattern(self, found, type_):
        """The variables of a pattern, with their types."""
        need(all(each.kind in ("nil", "var", "app") or each.args[0] == "∷" for each in within(found)), found.where, "unknown pattern")
        names = [each.args[0] for each in within(found) if each.kind == "var"]
        bound = {name: Unknown() for name in names if not name.rpartition(".")[2][0].isupper() and name not in ("zero", "suc")}
        self.infer(found, bound, type_)
        return bound


def data_of(decl):
    """The data of which a record of propositions speaks, with their types."""
    return {name: part for name, part in decl.parts.items() if isinstance(part, Type)}


# ---- declarations

def read(library, decl):
    """Reads what a declaration declares, once."""
    if not decl.is_read:
        decl.is_read, decl.scope = True, Scope(library, decl)
        {"const": read_constant, "def": read_definition, "record": read_record, "data": read_data, "law": read_statement, "example": read_statement}[decl.what](decl)
    return decl


def read_words(library):
    """Reads the types of the words of Rattle's library."""
    for name, (text, _) in library.standard.items():
        library.words[name] = word = Decl("def", name, Source("generator/words.txt"), 0, [])
        word.source.uses = {name: ("Rattle.std.", name) for name in TYPES}
        word.scope = Scope(library, word)
        word.type, word.variables = word.scope.type(word.scope.scheme(word.parser(text, 0).whole())), word.scope.variables


def read_statement(decl):
    """A law, or a worked example: a proposition."""
    decl.statement = decl.parser(decl.text, decl.line).whole()
    decl.scope.infer(decl.statement, {}, PROP)


def read_constant(decl):
    match = re.fullmatch(r": \w+ = (\d+)(?: << (\d+))?", decl.text)
    need(match and (match[1] == "1" or not match[2]), decl.where(), f"unknown constant: {decl.text}")
    decl.value, decl.type = f"2 ^ {match[2]}" if match[2] else match[1], NAT


def members(decl):
    """What a type takes, and its fields or variants with their types. The comment before each is noted."""
    pieces = re.split(r"^  pub " if decl.what == "record" else r"^  (?=[^ -])", decl.text, flags=re.M)
    parser, found, line = decl.parser(without_comments(pieces[0]), decl.line), {}, decl.line
    parser.eat("name")
    params = [(name, sort) for names, sort, _ in parser.binders() for name in names]
    for token in (":", "Type", "0", "where", "eof"):
        parser.eat(token)
    for before, piece in zip(pieces, pieces[1:]):
        line += before.count("\n")
        parser = decl.parser(without_comments(piece), line)
        name = parser.eat("name")
        parser.eat(":")
        found[name], decl.notes[name] = parser.whole(), [row.strip() for row in re.findall(r"^ *--(.*)", before, re.M)]
    return params, found


def without_comments(text):
    return re.sub(r"^ *--.*", "", text, flags=re.M)


def read_data(decl):
    params, variants = members(decl)
    need(not params, decl.where(), "variants of a type with arguments")
    for name, found in variants.items():
        decl.variants[name], decl.arguments[name], type_ = [], [], decl.scope.type(found)
        while type_.head == "→":
            decl.variants[name].append(type_.args[0])
            type_ = type_.args[1]
        while found.kind == "all":
            decl.arguments[name] += found.args[0]
            found = found.args[2]


def read_record(decl):
    """A record of data; or of propositions, and of data that they speak of."""
    scope, (params, texts) = decl.scope, members(decl)
    scope.values, scope.variables = {name for name, _ in params}, [name for name, sort in params if sort.kind == "type"]
    fields = {name: scope.as_type(found) for name, found in texts.items()}
    decl.is_prop = None in fields.values()
    decl.variables = scope.variables = [] if decl.is_prop else scope.variables
    decl.params = [(name, scope.type(sort)) for name, sort in params if name not in decl.variables]
    if decl.is_prop:
        read_facts(decl, texts)
    if decl.is_witness or not decl.is_prop:
        decl.fields = data_of(decl) or fields


def read_facts(decl, texts):
    """The parts of a record of propositions: each is an expression, or data of a type."""
    scope, bound, decl.type = decl.scope, dict(decl.params), arrow([type_ for _, type_ in decl.params], PROP)
    spoken_of = {each.args[0].args[0] for found in texts.values() for each in within(found) if each.kind == "proj" and each.args[0].kind == "var"}
    for name, found in texts.items():
        type_ = None if name in bound else scope.as_type(found)
        decl.parts[name] = type_ or found
        if type_:
            bound[name] = scope.type(found, bound)
        else:
            scope.infer(found, bound, PROP)
        if name in spoken_of and not type_:  # then its data are data of this record too
            decl.opens[name] = record = (found.args[0] if found.kind == "app" else found).target
            record.is_opened = True
            data = {f"{name}_{each}": its for each, its in data_of(record).items()}
            decl.parts.update(data)
            bound.update(data)


def read_definition(decl):
    scope, parser = decl.scope, decl.parser(decl.text, decl.line)
    parser.eat("name")
    parser.eat(":")
    signature = rest = scope.scheme(parser.whole())
    decl.variables = scope.variables
    decl.alias = scope.as_type(clause(decl, *decl.clauses[0])[1]) if signature.kind == "type" and len(decl.clauses) == 1 else None
    if decl.alias:
        return
    decl.type, decl.names, bound = scope.type(signature), [], {}
    while rest.kind == "all" or rest.kind == "op" and decl.names:
        names = rest.args[0] if rest.kind == "all" else []
        bound.update(dict.fromkeys(names, scope.type(rest.args[1], bound)))
        decl.names += names
        rest = rest.args[2]
    for line, text in decl.clauses:
        patterns, found = clause(decl, line, text)
        type_, bound = decl.type, {}
        for each in patterns:
            takes, type_ = taken(type_, each.where, "patterns")
            bound.update(scope.pattern(each, takes))
        scope.infer(found, bound, type_)
        decl.rows.append((patterns, found))
    need(len({len(patterns) for patterns, _ in decl.rows}) == 1, decl.where(), "clauses of different lengths, or none")


def clause(decl, line, text):
    """The patterns and the value of one clause."""
    parser = decl.parser(text, line)
    parser.eat("name")
    patterns = parser.until("=", parser.atom)
    parser.eat("=")
    return patterns, parser.whole()
