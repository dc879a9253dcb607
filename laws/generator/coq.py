"""Prints declarations in the language of Coq."""
from generator.antt import Expr, need, within
from generator.meaning import NAT, Type, arrow, data_of
from generator.names import TYPES, WITNESSES
from generator.sources import Decl, coq_name

# A text to print is a string, or a list of these that stands on one line if it fits. If not, its lines end at each BREAK, and go on further in, or at
# each NEXT, and go on where they began.
BREAK, NEXT, WIDTH = object(), object(), 120
# The infix operators: what they are in Coq, their level, and the levels of what may stand left and right of them.
INFIX = {"→": ("->", 99, 98, 99), "↔": ("<->", 95, 94, 94), "⊎": ("\\/", 85, 84, 85), "×": ("/\\", 80, 79, 80), "≡": ("=", 70, 69, 69), "≢": ("<>", 70, 69, 69),
         "<": ("<", 70, 69, 69), "≤": ("<=", 70, 69, 69), "==": ("=?", 70, 69, 69), "∷": ("::", 60, 59, 60), "++": ("++", 60, 59, 60), "||": ("||", 50, 50, 49),
         "+": ("+", 50, 50, 49), "-": ("-", 50, 50, 49), "&&": ("&&", 40, 40, 39), "*": ("*", 40, 40, 39), "/": ("/", 40, 39, 39), "%": ("mod", 40, 39, 39), "^": ("^", 30, 29, 30),
         "nat_lt": ("<?", 70, 69, 69), "nat_le": ("<=?", 70, 69, 69)}
TYPE_INFIX = {"→": ("->", 99, 98, 99), "×": ("*", 40, 40, 39)}


def flat(doc):
    return doc if isinstance(doc, str) else "".join(" " if each in (BREAK, NEXT) else flat(each) for each in doc)


def layout(doc, indent, column):
    """The text of a document whose lines begin at `indent`, and whose first one goes on at `column`."""
    one = flat(doc)
    if isinstance(doc, str) or column + len(one) <= WIDTH and "\n" not in one:
        return one
    out = ""
    for each in doc:
        here = column + len(out) if "\n" not in out else len(out) - out.rindex("\n") - 1
        if each in (BREAK, NEXT):
            out = out.rstrip(" ") + "\n" + " " * (indent + 2 * (each is BREAK))
        else:
            out += layout(each, indent + 2, here)
    return out


def names_of(decl):
    """The names that a declaration has in its file of Coq."""
    if decl.what == "data":
        return [decl.module] if decl.module else [decl.coq, *map(coq_name, decl.variants)]
    fields = [f"{decl.letters}_{name}" for name in [*decl.fields, *decl.parts]]
    others = [decl.coq + "_with", "Build_" + decl.coq, *["set_" + name for name in fields]] if decl.what == "record" else []
    return [decl.coq, *fields, *others]


def facts_of(decl):
    """The propositions of a record."""
    return {name: part for name, part in decl.parts.items() if isinstance(part, Expr)}


def variables_of(found):
    """The variables of a pattern."""
    return [each.args[0] for each in within(found) if each.kind == "var" and each.target is None]


def calls(decl, found):
    """Where the definition calls itself."""
    return [call for call in within(found) if call.kind == "app" and call.args[0].target is decl]


def comment(rows, indent=""):
    if not rows:
        return ""
    text = "\n".join((indent + "   " if at and row else "") + row for at, row in enumerate(rows)).strip().replace("(*", "( *").replace("*)", "* )")
    return f"{indent}(* {text.replace(chr(34), chr(39)) if text.count(chr(34)) % 2 else text} *)\n"


class Printer:
    """Prints for one file of Coq. A name that several of the files that it sees have is printed with its file."""

    def __init__(self, library, owners, file, sees):
        self.library, self.owners, self.file, self.seen, self.own = library, owners, file, {file, *sees}, {}

    def of_file(self, decl, name):
        is_alone = decl.source.file == self.file or len(self.owners.get(name, set()) & self.seen) < 2
        return name if is_alone else f"{decl.source.file}.{name}"

    def name(self, target):
        """What a name stands for, as Coq names it."""
        if isinstance(target, str):
            return self.library.standard[target][1]
        decl, name = (target[0], coq_name(target[1])) if isinstance(target, tuple) else (target, target.coq)
        return f"{self.of_file(decl, decl.module)}.{name}" if decl.module else self.of_file(decl, name)

    def field(self, decl, name, before=""):
        return decl if decl in ("fst", "snd") else self.of_file(decl, f"{before}{decl.letters}_{name}")

    def type(self, type_, level=200):
        if type_.name:
            return flat(self.expr(type_.name, level)) if isinstance(type_.name, Expr) else self.name(type_.name)
        if type_.head in TYPE_INFIX:
            sign, own, left, right = TYPE_INFIX[type_.head]
            text = f"{self.type(type_.args[0], left)} {sign} {self.type(type_.args[1], right)}"
        else:
            head, own = self.name(type_.head) if isinstance(type_.head, Decl) else TYPES.get(type_.head, type_.head), 10 if type_.args else 0
            text = " ".join([head, *[self.type(each, 9) for each in type_.args]])
        return f"({text})" if own > level else text

    # ---- expressions: each is printed as a document, and the level of its operator

    def expr(self, found, level=200):
        doc, own = getattr(self, "print_" + found.kind)(found, found.args)
        return ["(", doc, ")"] if own > level else doc

    def applied(self, head, args):
        return [head, *[part for each in args for part in (BREAK, self.expr(each, 9))]]

    def print_num(self, found, args):
        return str(args[0]), 0

    def print_var(self, found, args):
        return self.name(found.target) if found.target else self.own.get(args[0], coq_name(args[0])), 0

    print_nil = print_as = print_num

    def print_app(self, found, args):
        if args[0].target in ("nat_lt", "nat_le") and len(args[1]) == 2:
            return self.print_op(found, [args[0].target, *args[1]])
        doc = self.applied(self.expr(args[0], 10), args[1])
        return ["inhabited (", doc, ")"] if getattr(args[0].target, "is_witness", False) and not found.target else doc, 10  # nobody takes its data

    def print_lam(self, found, args):
        names, body = args
        if body.kind == "proj" and body.args[0].args[:1] == names:
            return self.field(body.target, body.args[1]), 0  # λ x. x.f is f
        return [f"fun {' '.join(map(coq_name, names))} =>", BREAK, self.expr(body)], 200

    def print_let(self, found, args):
        rest = self.expr(args[3])
        return [f"let {coq_name(args[0][0])} := ", self.expr(args[2]), " in", NEXT, *(rest if args[3].kind == "let" else [rest])], 200

    def print_if(self, found, args):
        return ["if ", self.expr(args[0]), BREAK, "then ", self.expr(args[1]), BREAK, "else ", self.expr(args[2])], 200

    def print_elim(self, found, args):
        cases = [part for pattern, each in args[1] for part in (BREAK, "| ", self.pattern(pattern), " => ", self.expr(each))]
        return ["match ", self.expr(args[0]), " with", *cases, BREAK, "end"], 0

    def print_tuple(self, found, args):
        return ["(", self.expr(args[0]), ",", BREAK, self.expr(args[1]), ")"], 0

    def print_record(self, found, args):
        values, out = dict(args[0]), []
        for name in found.target.fields:
            out += [";" if out else "{|", BREAK, f"{self.field(found.target, name)} := ", self.expr(values[name])]
        return [*out, " |}"], 0

    def print_update(self, found, args):
        out = self.expr(args[1], 9)
        for at, (name, each) in enumerate(reversed(args[0])):
            out = [self.field(found.target, name, "set_"), BREAK, self.expr(each, 9), BREAK, ["(", out, ")"] if at else out]
        return out, 10

    def print_proj(self, found, args):
        return [self.field(found.target, args[1]), " ", self.expr(args[0], 9)], 10

    def print_op(self, found, args):
        operator, left, right = args
        text, level, on_left, on_right = INFIX[operator]
        items = listed(found) if operator == "∷" else None
        if items is not None:
            return ["[", *[part for at, each in enumerate(items) for part in ([";", BREAK] if at else []) + [self.expr(each)]], "]"], 0

        def is_chain(side, its_level):
            return side.kind == "op" and its_level == level == INFIX[side.args[0]][1] and listed(side) is None
        joint = NEXT if level >= 80 else BREAK
        if is_chain(left, on_left):
            return [*self.expr(left), joint, text + " ", self.expr(right, on_right)], level
        behind = self.expr(right) if is_chain(right, on_right) else [self.expr(right, on_right)]
        return [self.expr(left, on_left), f" {text}", joint, *behind], level

    def print_all(self, found, args):
        groups, body = [], found
        while body.kind == found.kind:
            groups.append(f"{' '.join(map(coq_name, body.args[0]))} : {self.type(body.target)}")
            body = body.args[2]
        bound = groups[0] if len(groups) == 1 else " ".join(f"({text})" for text in groups)
        return ["forall " if found.kind == "all" else "exists ", bound, ",", BREAK, self.expr(body)], 200

    print_some = print_all

    def pattern(self, found, used=None, level=200):
        """A pattern. A variable that is not in `used` is not named, and a list with a target gets that name."""
        if found.kind == "nil":
            return "[]"
        if found.kind == "var" and found.target is None:
            return coq_name(found.args[0]) if used is None or found.args[0] in used else "_"
        if found.kind == "op":
            text, own = f"{self.pattern(found.args[1], used, 59)} :: {self.pattern(found.args[2], used, 60)}", 60
            if found.target:
                return f"(({text}) as {found.target})"
        else:
            head, args = found.args if found.kind == "app" else (found, [])
            if head.target == "suc":  # it stands behind zero
                need(args[0].kind == "var" and used is not None and args[0].args[0] not in used, found.where, "a successor whose number is used")
                return "_"
            text, own = " ".join([self.name(head.target), *[self.pattern(each, used, 9) for each in args]]), 10 if args else 0
        return f"({text})" if own > level else text

    # ---- declarations

    def declaration(self, decl):
        return comment(decl.comment) + getattr(self, "print_the_" + decl.what)(decl, decl.coq)

    def print_the_law(self, decl, name):
        return layout([f"Definition {name} : Prop :=", BREAK, self.statement(decl)], 0, 0) + ".\n"

    def print_the_example(self, decl, name):
        proof = f"exists {layout(self.expr(decl.witness, 9), 0, 0)}. vm_compute. repeat split" if decl.witness else "vm_compute. reflexivity"
        return layout([f"Example {name} :", BREAK, self.statement(decl)], 0, 0) + f".\nProof. {proof}. Qed.\n"

    def statement(self, decl):
        self.check(decl, [decl.statement], [])
        return self.expr(decl.statement)

    def print_the_const(self, decl, name):
        return f"Definition {name} : N := {decl.value}.\n"

    def params(self, pairs):
        return "".join(f" ({coq_name(name)} : {self.type(type_)})" for name, type_ in pairs)

    def print_the_record(self, decl, name):
        self.check(decl, facts_of(decl).values(), [each for each, _ in decl.params])
        if decl.is_prop and data_of(decl) and not decl.is_witness:
            return self.print_the_facts(decl, name)
        fields = {each: f"{decl.letters}_{each}" for each in decl.parts or decl.fields}
        self.own = {each: fields[each] for each in decl.fields if decl.is_prop}
        types = "".join(f" ({each} : Type)" for each in decl.variables)
        sort = "" if types else " : Prop" if decl.is_prop and not decl.is_witness else " : Set"
        rows = []
        for each, its in fields.items():
            doc = self.type(decl.fields[each]) if each in decl.fields else layout(self.expr(decl.parts[each]), 2, len(each) + 10)
            rows.append(f"{comment(decl.notes.get(each), '  ')}  {its} : {doc}")
        self.own, out = {}, f"Record {name}{types}{self.params(decl.params)}{sort} := {{\n" + ";\n".join(rows) + " }.\n"
        given = decl.variables or [coq_name(each) for each, _ in decl.params if decl.is_witness]
        out += "".join(f"Arguments {each} {{{' '.join(given)}}}.\n" for each in [f"Build_{name}", *fields.values()] if given)
        out += comment(["set_FIELD x r is r with x in that field: an update."] if decl.updated else [])
        for each in [each for each in fields if each in decl.updated]:
            values = " ".join("x" if other == each else f"({its} r)" for other, its in fields.items())
            out += f"Definition set_{fields[each]} (x : {self.type(decl.fields[each])}) (r : {name}) : {name} :=\n  Build_{name} {values}.\n"
        return out

    def print_the_facts(self, decl, name):
        """A record of propositions with data: there is such data."""
        data, facts, rows = data_of(decl), facts_of(decl), []
        for each, found in facts.items():
            doc = self.opened(decl.opens[each], each, found) if each in decl.opens else self.expr(found, 80 if len(rows) + 1 == len(facts) else 79)
            begin = "    " + "/\\ " * bool(rows) + f"(* {each} *) "
            rows.append(comment(decl.notes.get(each), "    ") + begin + layout(doc, 4, len(begin)))
        text, params, datas = "\n".join(rows), self.params(decl.params), self.params(data.items())
        if not decl.is_opened:
            return f"Definition {name}{params} : Prop :=\n  exists{datas},\n{text}.\n"
        names = " ".join(map(coq_name, [*[each for each, _ in decl.params], *data]))
        return f"Definition {name}_with{params}{datas} : Prop :=\n{text}.\nDefinition {name}{params} : Prop :=\n  exists{datas}, {name}_with {names}.\n"

    def opened(self, record, name, fact):
        """A fact of which other facts take data: it holds of these."""
        data = [part for each in data_of(record) for part in (BREAK, coq_name(f"{name}_{each}"))]
        return [*self.applied(self.of_file(record, record.coq + "_with"), fact.args[1] if fact.kind == "app" else []), *data]

    def print_the_data(self, decl, name):
        out = f"Inductive {name} : Set :=\n"
        for each, types in decl.variants.items():
            names = decl.arguments[each]
            args = self.params(zip(names, types)) if names else ""
            its = "" if names or not types else " : " + " -> ".join([*[self.type(type_, 98) for type_ in types], name])
            out += comment(decl.notes.get(each), "  ") + f"  | {coq_name(each)}{args}{its}\n"
        return f"Module {decl.module}.\n{out[:-1]}.\nEnd {decl.module}.\n" if decl.module else out[:-1] + ".\n"

    def print_the_def(self, decl, name):
        if decl.alias:
            return f"Definition {name} : Set := {self.type(Type(decl.alias.head, *decl.alias.args))}.\n"
        if counts_down(decl):
            return self.print_the_count(decl, name)
        binders, matched, result, taken = self.columns(decl)
        late = next((at for at, (_, type_) in enumerate(binders) if matched and isinstance(type_.name, Expr)), len(binders))
        self.check(decl, [each for patterns, found in decl.rows for each in [*patterns, found]], [each for each, _ in binders])
        word = "Fixpoint" if any(each.target is decl for _, found in decl.rows for each in within(found)) else "Definition"
        result = "Set" if name in WITNESSES else self.type(arrow([type_ for _, type_ in binders[late:]], result))
        head = f"{word} {name}{self.variables(decl)}{self.params(binders[:late])} : {result} :="
        if not matched:
            return layout([head, BREAK, self.expr(decl.rows[0][1])], 0, 0) + ".\n"
        returned = f" return {result}" * (late < len(binders))
        out = f"{head}\n  match {', '.join(coq_name(each) for _, each in matched)}{returned} with\n"
        for patterns, found in decl.rows:
            name_again(decl, patterns, found, taken)
            texts = ["_" if patterns[at].args[:1] == [its] else self.pattern(patterns[at], variables_of(found)) for at, its in matched]
            taker = f" fun {' '.join(coq_name(each.args[0]) for each in patterns[late:])} =>" if late < len(binders) else ""
            text = layout([f"| {', '.join(texts)} =>{taker}", BREAK, self.expr(found)], 2, 2)
            out += "  " + (text.replace("True", "unit").replace("/\\", "*").replace("inhabited ", "") if name in WITNESSES else text) + "\n"
        return out + "  end" + "%type" * (name in WITNESSES) + ".\n"

    def variables(self, decl):
        return f" {{{' '.join(decl.variables)} : Type}}" if decl.variables else ""

    def print_the_count(self, decl, name):
        """What calls itself for the number before: it is what is there for zero, with one step for each."""
        (_, first), (patterns, found) = decl.rows
        binders, _, result, _ = self.columns(decl)
        before = patterns[-1].args[1][0].args[0]
        binders[-1] = (before, NAT)
        for call in calls(decl, found):
            need([arg.args[0] for arg in call.args[1]] == [each for each, _ in binders], call.where, "it calls itself for other arguments")
            call.kind, call.args = "as", ["again"]
        step = layout(["fun ", coq_name(before), " again => ", self.expr(found)], 0, 0)
        head = f"Definition {name}{self.variables(decl)}{self.params(binders)} : {self.type(result)} :="
        return f"{head}\n  N.recursion {flat(self.expr(first, 9))} ({step}) {coq_name(before)}.\n"

    def columns(self, decl):
        """The arguments of a definition: those that all clauses name alike, and those that it matches."""
        taken = {name for patterns, _ in decl.rows for each in patterns for name in variables_of(each)}
        binders, matched, type_ = [], [], decl.type
        for at, column in enumerate(zip(*[patterns for patterns, _ in decl.rows])):
            takes, type_ = type_.args
            names = [each.args[0] for each in column if each.kind == "var" and each.target is None]
            name = names[-1] if names else decl.names[at] if at < len(decl.names) else new_name(takes, taken)
            if len(names) < len(column) or len(set(names)) > 1:
                matched.append((at, name))
            taken.add(name)
            binders.append((name, takes))
        return binders, matched, type_, taken

    def check(self, decl, found, binders):
        """Refuses a bound name that is printed as another declaration is: Coq would take the one for the other."""
        bound, cited = set(map(coq_name, binders)), set()
        for each in [each for top in found for each in within(top)]:
            if each.kind == "var":
                (cited if each.target else bound).add(flat(self.expr(each)))
            elif each.kind == "proj":
                cited.add(flat(self.field(each.target, each.args[1])))
            elif each.kind in ("lam", "let", "all", "some"):
                bound |= set(map(coq_name, each.args[0]))
        need(not bound & cited, decl.where(), f"bound in {decl.name}, and the name of another declaration that it cites: {sorted(bound & cited)}")


def counts_down(decl):
    """Whether its clauses are for zero, and for the successor of a number for which it calls itself."""
    last = [patterns[-1] for patterns, _ in decl.rows if patterns]
    is_down = [(each.args[0] if each.kind == "app" else each).target for each in last] == ["zero", "suc"]
    return is_down and last[1].args[1][0].args[0] in variables_of(decl.rows[1][1])


def listed(found):
    """The items of a list that ends with []."""
    if found.kind == "nil":
        return []
    rest = listed(found.args[2]) if found.kind == "op" and found.args[0] == "∷" else None
    return None if rest is None else [found.args[1], *rest]


def name_again(decl, patterns, found, taken):
    """Names each part of a pattern on which the definition calls itself, so that Coq sees that it gets smaller."""
    for each in [part for top in patterns for part in within(top) if part is not top and part.kind == "op"]:
        again = [call for call in calls(decl, found) if each in call.args[1]]
        if again:
            each.target = new_name(Type("List"), taken)
            taken.add(each.target)
        for call in again:
            call.args[1] = [Expr("as", arg.where, [each.target]) if arg == each else arg for arg in call.args[1]]


def new_name(type_, taken):
    head = type_.head
    name = {"List": "xs", "Option": "o", "Bool": "b", "ℕ": "n"}.get(head, "x") if isinstance(head, str) else head.name[0].lower() + head.name[1:]
    name = name if coq_name(name) == name else name[0]
    while name in taken:
        name += "'"
    return name
