"""Reads expressions of the language of .antt files."""
import re
from dataclasses import dataclass, field
from typing import NamedTuple


class Refused(Exception):
    """What the generator does not know, with its file and line."""


def need(holds, where, what):
    """Refuses what does not hold."""
    if not holds:
        raise Refused(f"{where[0]}:{where[1]}: {what}")


@dataclass
class Expr:
    """An expression: its kind, its file and line, and its parts. The target is found later: what a name stands for that is not bound, the record of a
    field, or the type of what is bound."""
    kind: str
    where: tuple = field(compare=False)
    args: list
    target: object = field(default=None, compare=False)


class Token(NamedTuple):
    """A word, an operator or a mark is its own kind. The others are "name", "num", "proj" (a dot that joins names), "dot" (it ends binders), "eof"."""
    kind: str
    text: str
    line: int


TOKEN = re.compile(r"(?P<space>[ \n]+)|(?P<num>\d+(?![^\s(){}\[\];,.]))|(?P<mark>[(){};,λ]|\[\]|\[|\])|(?P<proj>(?<=\S)\.(?=\S))|(?P<dot>\.)"
                   r"|(?P<name>[^\s(){}\[\];,.λ\"]+)|(?P<unknown>.)")
# The infix operators, with how strong they bind and to which side: left, right, or not at all.
OPERATORS = {"→": (1, "r"), "↔": (2, "n"), "⊎": (3, "r"), "×": (4, "r"), "≡": (5, "n"), "≢": (5, "n"), "<": (5, "n"), "≤": (5, "n"), "||": (6, "l"),
             "&&": (7, "l"), "==": (8, "n"), "∷": (9, "r"), "++": (9, "r"), "+": (10, "l"), "-": (10, "l"), "*": (11, "l"), "/": (11, "l"), "%": (11, "l"), "^": (12, "r")}
WORDS = {"if", "then", "else", "let", "in", "elim", "record", "where", "=", ":", "|", "↦", "Type", *OPERATORS}
BEGIN_ARGUMENT = {"name", "num", "(", "[]", "record", "elim", "Type"}


def tokens(text, path, line):
    out = []
    for match in TOKEN.finditer(text):
        kind, token = match.lastgroup, match.group()
        need(kind != "unknown", (path, line), f"unknown text {token!r}")
        if kind != "space":
            out.append(Token(token if kind == "mark" or token in WORDS else kind, token, line))
        line += token.count("\n")
    return [*out, Token("eof", "", line)]


class Parser:
    """Reads one text. Names before a dot that are in `aliases` are those of modules."""

    def __init__(self, text, path, line, aliases=()):
        self.path, self.aliases, self.tokens, self.at = path, aliases, tokens(text, path, line), 0

    @property
    def kind(self):
        return self.tokens[self.at].kind

    def where(self):
        return self.path, self.tokens[self.at].line

    def eat(self, *wanted):
        """The text of the token, which has this text, or is of this kind."""
        token = self.tokens[self.at]
        need({token.kind, token.text} & {*wanted}, self.where(), f"expected {' or '.join(wanted)}, found {token.text!r}")
        self.at += 1
        return token.text

    def after(self, kind, least=0):
        """The expression behind this token."""
        self.eat(kind)
        return self.expr(least)

    def until(self, end, item, comma=None):
        """The items before this token. There may be a comma behind the last one."""
        items = []
        while self.kind != end:
            items.append(item())
            if comma and self.kind != end:
                self.eat(comma)
        return items

    def between(self, begin, item, comma, end):
        """The items between these tokens, one or more."""
        self.eat(begin)
        items = self.until(end, item, comma)
        need(items, self.where(), f"nothing before {end}")
        self.eat(end)
        return items

    def names(self, end):
        return self.until(end, lambda: self.eat("name"))

    def whole(self):
        """The expression that is all of the rest."""
        found = self.expr()
        need(self.kind == "eof", self.where(), f"unknown construct at {self.tokens[self.at].text!r}")
        return found

    def is_binder(self):
        """Whether binders come: ( names : type ) or { names : type }."""
        if self.kind not in ("(", "{"):
            return False
        behind = next(token for token in self.tokens[self.at + 1:] if token.kind != "name")
        return behind.kind == ":" and behind is not self.tokens[self.at + 1]

    def binder(self):
        begin, names, type_ = self.eat("(", "{"), self.names(":"), self.after(":")
        self.eat(")" if begin == "(" else "}")
        return names, type_, begin == "{"

    def binders(self):
        found = []
        while self.is_binder():
            found.append(self.binder())
        return found

    def expr(self, least=0):
        """An expression whose operators bind at least so strong."""
        if self.is_binder():
            return self.bound()
        where, left = self.where(), self.unary()
        while OPERATORS.get(self.kind, (-1,))[0] >= least:
            strength, side = OPERATORS[self.kind]
            left = Expr("op", where, [self.eat(self.kind), left, self.expr(strength if side == "r" else strength + 1)])
            need(side != "n" or OPERATORS.get(self.kind, (0,))[0] != strength, self.where(), "operators without an order")
        return left

    def bound(self):
        """( x : A ) .. → B, or × B."""
        where, groups = self.where(), self.binders()
        kind, body = ("some", self.after("×", 4)) if self.kind == "×" else ("all", self.after("→", 1))
        for names, type_, is_implicit in reversed(groups):
            body = Expr(kind, where, [names, type_, body, is_implicit])
        return body

    def unary(self):
        where = self.where()
        if self.kind == "λ":
            self.eat("λ")
            return Expr("lam", where, [self.names("dot"), self.after("dot")])
        if self.kind == "let":
            self.eat("let")
            names, type_ = [self.eat("name")], self.after(":") if self.kind == ":" else None
            return Expr("let", where, [names, type_, self.after("="), self.after("in")])
        if self.kind == "if":
            return Expr("if", where, [self.after("if"), self.after("then"), self.after("else", 6)])
        head, args = self.atom(), []
        while self.kind in BEGIN_ARGUMENT:
            args.append(self.atom())
        return Expr("app", where, [head, args]) if args else head

    def atom(self):
        """What needs no parentheses, with the names that dots join to it."""
        where, kind = self.where(), self.kind
        if kind == "num":
            found = Expr("num", where, [int(self.eat("num"))])
        elif kind == "[]":
            found = Expr("nil", where, [self.eat("[]")])
        elif kind == "record":
            found = self.record(where)
        elif kind == "elim":
            self.eat("elim")
            found = Expr("elim", where, [self.atom(), self.between("[", lambda: (self.expr(9), self.after("↦")), "|", "]")])
        elif kind == "Type":
            found = Expr("type", where, [self.eat("Type"), self.eat("0")])
        elif kind == "(":
            parts = self.between("(", self.expr, ",", ")")
            found = parts[0] if len(parts) == 1 else Expr("tuple", where, parts)
        else:
            found = self.name(where)
        while self.kind == "proj":
            self.eat("proj")
            found = Expr("proj", where, [found, self.eat("name", "num")])
        return found

    def name(self, where):
        name = self.eat("name")
        if name in self.aliases and self.kind == "proj" and self.tokens[self.at + 1].text[0].isalpha():
            name += self.eat("proj") + self.eat("name")
        for token in "{0}" if name == "Unit" else "":
            self.eat(token)
        return Expr("var", where, [name])

    def record(self, where):
        """record { name = value; .. }, or with an expression before that, which it updates."""
        self.eat("record")
        updated = [self.atom()] if self.kind != "{" else []
        fields = self.between("{", lambda: (self.eat("name"), self.after("=")), ";", "}")
        return Expr("update" if updated else "record", where, [fields, *updated])


def within(found):
    """An expression, and all in it; or all in a list."""
    inner = found.args if isinstance(found, Expr) else found if isinstance(found, (list, tuple)) else []
    return [found] * isinstance(found, Expr) + [each for part in inner for each in within(part)]
