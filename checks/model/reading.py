"""Reads a C text of the language into a program: tokens, grammar, names. It takes texts that `repair` accepts, and
refuses others with an error of its own, without a place."""
import re
import sys
from dataclasses import dataclass, field

TOKEN = re.compile(
    r"""(?P<skip>[ \t\n\v\f\r]+|//[^\n]*|/\*.*?\*/|\#[ \t]*include(?:(?!/\*|//)[^\n])*)"""
    r"""|(?P<text>"(?:\\.|[^"\\\n])*")|(?P<char>'(?:\\.|[^'\\\n])')|(?P<number>[0-9]+)|(?P<word>[A-Za-z_][A-Za-z0-9_]*)"""
    r"""|(?P<punct>&&|\|\||->|\+\+|--|[-+*=!<>]=|[{}()\[\];,+\-*/%!=<>])""",
    re.S,
)
KEYS = set("break continue else for if int return sizeof struct typedef void while malloc free printf putchar getchar NULL EOF".split())
ESCAPES = {"n": 10, "t": 9, "r": 13, "\\": 92, "'": 39, '"': 34, "a": 7, "b": 8, "f": 12, "v": 11, "0": 0}
LEVELS = [["||"], ["&&"], ["==", "!="], ["<", "<=", ">", ">="], ["+", "-"], ["*", "/", "%"]]


class Unread(Exception):
    """The text is none of the language."""


@dataclass
class Gap:
    number: int
    frees: list = field(default_factory=list)  # of (expression, the spans of its tokens but the semicolon)
    visible: list = field(default_factory=list)  # the variables in scope


@dataclass
class Block:
    pieces: list  # of (gap, item, offset of the item)
    last_gap: Gap
    braced: bool
    start: int
    end: int


@dataclass
class Function:
    name: str
    result: object
    params: list
    at: int
    body: Block = None
    slot: int = None
    variables: list = field(default_factory=list)
    end: int = 0
    calls: list = field(default_factory=list)


@dataclass
class Program:
    text: str
    structs: list = field(default_factory=list)  # of (fields or None, offset of the body); a field is (name, type)
    variables: list = field(default_factory=list)  # of (name, type, whether global)
    functions: list = field(default_factory=list)
    gaps: list = field(default_factory=list)  # of (gap, function)

    def main(self):
        return next(k for k, it in enumerate(self.functions) if it.name == "main")


def tokens_of(text):
    """The tokens, each a kind, its spelling, its start and its end."""
    found, at = [], 0
    while at < len(text):
        met = TOKEN.match(text, at)
        if not met:
            raise Unread(f"no token at {at}")
        if met.lastgroup != "skip":
            kind = "key" if met.lastgroup == "word" and met.group() in KEYS else met.lastgroup
            found.append((kind, met.group(), met.start(), met.end()))
        at = met.end()
    return found + [("end", "", len(text), len(text))]


class Reader:
    """Goes over the tokens and makes the program. Types are "int", "void", "ints" (a pointer to int) and ("to", struct)."""

    def __init__(self, text):
        self.tokens, self.at, self.program = tokens_of(text), 0, Program(text)
        self.tags, self.aliases, self.by_name, self.scopes, self.function = {}, {}, {}, [{}], None

    # Tokens.

    def spelled(self, more=0):
        return self.tokens[min(self.at + more, len(self.tokens) - 1)][1]

    def kind(self, more=0):
        return self.tokens[min(self.at + more, len(self.tokens) - 1)][0]

    def start(self):
        return self.tokens[self.at][2]

    def take(self, *due):
        kind, word, start, _ = self.tokens[self.at]
        if due and word not in due:
            raise Unread(f"{word!r} at {start}, due {due}")
        self.at += 1
        return word

    def takes(self, *words):
        return self.take() if self.kind() in ("key", "punct") and self.spelled() in words else None

    def name(self):
        if self.kind() != "word":
            raise Unread(f"no name at {self.start()}")
        return self.take()

    # Types, structs and globals.

    def struct(self, tag):
        if tag is None or tag not in self.tags:
            self.program.structs.append((None, None))
            if tag is not None:
                self.tags[tag] = len(self.program.structs) - 1
        return self.tags[tag] if tag is not None else len(self.program.structs) - 1

    def base(self):
        if self.takes("int"):
            return "int"
        if self.takes("struct"):
            return ("to", self.struct(self.name()))
        return ("to", self.aliases[self.name()])

    def with_star(self, base):
        if self.takes("*"):
            return "ints" if base == "int" else base
        if base != "int":
            raise Unread("a struct as a value")
        return base

    def body(self, struct):
        at, fields = self.start(), []
        self.take("{")
        while not self.takes("}"):
            base = self.base()
            while True:
                ty = self.with_star(base)
                fields.append((self.name(), ty))
                if not self.takes(","):
                    break
            self.take(";")
        self.program.structs[struct] = (fields, at)

    def typedef(self):
        self.take("struct")
        tag = None if self.spelled() == "{" else self.name()
        struct = self.struct(tag)
        if self.spelled() == "{":
            self.body(struct)
        self.aliases[self.name()] = struct
        self.take(";")

    def is_struct(self):
        return self.spelled() == "struct" and (self.spelled(1) == "{" or self.spelled(2) in ("{", ";"))

    def top(self):
        if self.takes("typedef"):
            return self.typedef()
        if self.is_struct():
            self.take("struct")
            struct = self.struct(None if self.spelled() == "{" else self.name())
            if self.spelled() == "{":
                self.body(struct)
            return self.take(";")
        base = "void" if self.takes("void") else self.base()
        before = self.at
        ty = self.with_star(base) if base != "void" else base
        at, name = self.start(), self.name()
        if self.takes("("):
            return self.heading(name, ty, at)
        self.at = before
        return self.globals(base)

    def globals(self, base):
        while True:
            ty = self.with_star(base)
            self.declare(self.name(), ty, True)
            if self.takes("="):
                self.takes("-")
                self.take()
            if not self.takes(","):
                return self.take(";")

    def heading(self, name, ty, at):
        params = self.params()
        if self.takes(";"):
            return None
        result = None if ty == "void" else ty
        made = Function(name, result, [], at)
        self.by_name[name] = made
        self.program.functions.append(made)
        self.function = made
        self.scopes.append({})
        made.params = [self.declare(word, kind, False) for word, kind in params]
        made.body = self.block(True)
        self.scopes.pop()
        made.end = made.body.end
        if result:
            made.slot = self.declare("", result, False)
        return None

    def params(self):
        found = []
        if self.takes(")"):
            return found
        if self.spelled() == "void" and self.spelled(1) == ")":
            self.at += 2
            return found
        while True:
            ty = self.with_star(self.base())
            found.append((self.name() if self.kind() == "word" else "", ty))
            if not self.takes(","):
                self.take(")")
                return found

    def declare(self, name, ty, is_global):
        self.program.variables.append((name, ty, is_global))
        number = len(self.program.variables) - 1
        if name:
            self.scopes[-1][name] = number
        if not is_global:
            self.function.variables.append(number)
        return number

    # Blocks.

    def gap(self):
        visible = sorted(it for scope in self.scopes for it in scope.values())
        made = Gap(len(self.program.gaps), [], visible)
        self.program.gaps.append((made, self.function))
        return made

    def fill_gap(self, gap, only_one=False):
        while self.spelled() in (";", "free"):
            first = self.at
            if self.takes("free"):
                self.take("(")
                expr = self.expr()
                self.take(")")
                gap.frees.append((expr, [it[2:] for it in self.tokens[first:self.at]]))
            self.take(";")
            if only_one:
                return True
        return False

    def block(self, is_body=False):
        """A block in braces; that of a function shares its scope with the parameters."""
        start = self.start()
        self.take("{")
        if not is_body:
            self.scopes.append({})
        pieces = []
        while True:
            gap = self.gap()
            self.fill_gap(gap)
            if self.spelled() == "}":
                break
            at = self.start()
            pieces.append((gap, self.item(), at))
        self.take("}")
        if not is_body:
            self.scopes.pop()
        return Block(pieces, gap, True, start, self.tokens[self.at - 1][3])

    def body_block(self):
        """The body of a statement, which may lack braces."""
        if self.spelled() == "{":
            return self.block()
        start, gap, pieces = self.start(), None, []
        self.scopes.append({})
        gap = self.gap()
        if not self.fill_gap(gap, True):
            pieces.append((gap, self.item(), start))
            gap = self.gap()
        self.scopes.pop()
        return Block(pieces, gap, False, start, self.tokens[self.at - 1][3])

    def is_declaration(self):
        if self.spelled() in ("int", "struct"):
            return True
        return self.kind() == "word" and (self.kind(1) == "word" or self.spelled(1) == "*")

    def item(self):
        word, at = self.spelled(), self.start()
        if word == "{":
            return ("nest", self.block())
        if word in ("if", "while", "for"):
            return getattr(self, word + "_item")()
        if word in ("break", "continue"):
            self.at += 1
            self.take(";")
            return (word,)
        if self.takes("return"):
            right = None if self.spelled() == ";" else self.right()
            self.take(";")
            return ("return", right, at)
        made = ("declare", self.declaration()) if self.is_declaration() else self.simple_or_call()
        self.take(";")
        return made

    def if_item(self):
        arms, last = [], None
        self.take("if")
        while True:
            self.take("(")
            test = self.expr()
            self.take(")")
            arms.append((test, self.body_block()))
            if not self.takes("else"):
                break
            if not self.takes("if"):
                last = self.body_block()
                break
        return ("if", arms, last)

    def while_item(self):
        self.take("while")
        self.take("(")
        test = self.expr()
        self.take(")")
        return ("while", test, self.body_block())

    def for_item(self):
        self.take("for")
        self.take("(")
        self.scopes.append({})
        starts = []
        if self.spelled() != ";":
            starts = self.declaration() if self.is_declaration() else [self.simple()]
        self.take(";")
        test = ("const", 1, 0) if self.spelled() == ";" else self.expr()
        self.take(";")
        step = None if self.spelled() == ")" else self.simple()
        self.take(")")
        body = self.body_block()
        self.scopes.pop()
        return ("for", starts, test, step, body)

    def declaration(self):
        base, found = self.base(), []
        while True:
            ty = self.with_star(base)
            number = self.declare(self.name(), ty, False)
            right = self.right() if self.takes("=") else None
            found.append(("unset", number) if right is None else ("put", ("var", number), "=", right))
            if not self.takes(","):
                return found

    def simple_or_call(self):
        if self.is_call():
            return ("do", self.call())
        return ("assign", self.simple())

    def simple(self):
        sign = self.takes("++", "--")
        place = self.unary()
        op = "+=" if sign == "++" else "-=" if sign else self.take("=", "+=", "-=", "*=", "++", "--")
        if sign or op in ("++", "--"):
            return ("put", place, op[0] + "=", ("plain", ("const", 1, 0)))
        return ("put", place, op, self.right())

    # Calls.

    def is_call(self):
        if self.spelled() in ("malloc", "getchar", "putchar", "printf"):
            return True
        if self.spelled() == "(":
            return self.spelled(1) in ("int", "struct") or self.spelled(2) == "*" and self.spelled(3) == ")"
        return self.kind() == "word" and self.spelled(1) == "("

    def right(self):
        return ("call", self.call()) if self.is_call() else ("plain", self.expr())

    def call(self):
        if self.takes("("):
            self.base()
            self.take("*")
            self.take(")")
        at = self.start()
        word = self.take()
        self.take("(")
        if word == "malloc":
            return self.request(at)
        args = []
        while not self.takes(")"):
            if word == "printf" and not args and self.kind() == "text":
                self.take()
            else:
                args.append(self.expr())
            self.takes(",")
        if word in ("getchar", "putchar", "printf"):
            return (word, args)
        made = ("user", word, args, len(self.function.calls))
        self.function.calls.append(word)
        return made

    def request(self, at):
        count = None
        if self.spelled() == "sizeof":
            unit = self.unit()
            count = self.unary() if self.takes("*") else None
        else:
            count = self.unary()
            while not (self.spelled() == "*" and self.spelled(1) == "sizeof"):
                op = self.take("*", "/", "%")
                count = ("binary", op, count, self.unary())
            self.take("*")
            unit = self.unit()
        self.take(")")
        return ("malloc", unit, count, at)

    def unit(self):
        """The struct of a unit, or None for numbers."""
        self.take("sizeof")
        inner = self.takes("(")
        if self.takes("*"):
            ty = self.program.variables[self.find(self.name())][1]
        else:
            ty = self.base()
        if inner:
            self.take(")")
        return ty[1] if isinstance(ty, tuple) else None

    # Expressions.

    def find(self, name):
        for scope in reversed(self.scopes):
            if name in scope:
                return scope[name]
        raise Unread(f"unknown name {name}")

    def expr(self, level=0):
        if level == len(LEVELS):
            return self.unary()
        left = self.expr(level + 1)
        while self.kind() == "punct" and self.spelled() in LEVELS[level]:
            op = self.take()
            left = ("binary", op, left, self.expr(level + 1))
        return left

    def unary(self):
        op = self.takes("-", "!", "*")
        if op == "*":
            return ("deref", self.unary())
        return ("unary", op, self.unary()) if op else self.postfix()

    def postfix(self):
        made = self.primary()
        while self.spelled() in ("->", "["):
            if self.takes("->"):
                made = self.member(made, self.name())
            else:
                self.take("[")
                made = ("index", made, self.expr())
                self.take("]")
        return made

    def member(self, base, name):
        fields = self.program.structs[self.type_of(base)[1]][0]
        return ("field", base, next(k for k, it in enumerate(fields) if it[0] == name))

    def primary(self):
        kind, word, start, _ = self.tokens[self.at]
        self.at += 1
        if word == "(":
            made = self.expr()
            self.take(")")
            return made
        if kind == "number":
            return ("const", int(word), start)
        if kind == "char":
            return ("const", ESCAPES[word[2]] if word[1] == "\\" else ord(word[1]), start)
        if word in ("NULL", "EOF"):
            return ("null",) if word == "NULL" else ("const", -1, start)
        return ("var", self.find(word))

    def type_of(self, expr):
        return type_of(self.program, expr)


def type_of(program, expr):
    """The type of an expression, "int" for all that are no pointers."""
    if expr[0] == "var":
        return program.variables[expr[1]][1]
    if expr[0] == "field":
        return program.structs[type_of(program, expr[1])[1]][0][expr[2]][1]
    return "int"


def read(text):
    """The program of a text."""
    sys.setrecursionlimit(100_000)
    reader = Reader(text)
    while reader.kind() != "end":
        reader.top()
    for function in reader.program.functions:
        function.calls = [next(k for k, it in enumerate(reader.program.functions) if it.name == name) for name in function.calls]
    reader.program.main()
    return reader.program
