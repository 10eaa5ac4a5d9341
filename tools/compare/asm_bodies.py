"""Random expressions and functions of asm.js, as lists of tokens.

Beside tokens of the language a list holds `;?`, a semicolon that a line end or a closing brace may stand for, `;do`, the one after `do .. while (..)`,
and `JOIN`, which says that no line may end there. A unit of a run is taken where a token of UNITS stands: at a function's start and at each turn of a loop."""
from dataclasses import dataclass

WORDS = [0, 1, 2, 3, 4, 5, 7, 8, 15, 16, 31, 32, 33, 63, 64, 100, 127, 128, 255, 256, 257, 1000, 4095, 4096, 32767, 32768, 65535, 65536, 65537, 2**20 - 1, 2**24]
WORDS += [2**30, 2**31 - 2, 2**31 - 1, 2**31, 2**31 + 1, 2**32 - 2, 2**32 - 1]
# Where a unit is taken: before a condition, in place of one, and as a statement; and how a text says so that counts them.
UNITS = {"UNIT,": "$$take_unit$$(),", "UNIT": "$$take_unit$$(),1", "UNIT;": "$$take_unit$$();"}
NEGATIVE = [-1, -2, -3, -4, -7, -8, -16, -31, -32, -100, -128, -129, -255, -256, -32768, -32769, -65536, -2**30, -2**31 + 1, -2**31]
# How strongly the grammar's expressions bind, from the comma to single operands.
COMMA, ASSIGNMENT, CONDITIONAL, OR, XOR, AND, EQUALITY, RELATION, SHIFT, SUM, PRODUCT, UNARY, SINGLE = range(13)
LEVELS = {"|": OR, "^": XOR, "&": AND, "<<": SHIFT, ">>": SHIFT, ">>>": SHIFT, "==": EQUALITY, "!=": EQUALITY, "/": PRODUCT, "%": PRODUCT}
LEVELS |= {op: RELATION for op in ("<", "<=", ">", ">=")}


@dataclass
class Expr:
    tokens: list
    level: int


@dataclass
class Callee:
    """A function or a table: what may be called by functions of a higher rank, where its cost is within what is left."""

    name: str
    params: int
    result: bool
    rank: int
    cost: int
    members: list = None  # of a table
    recursive: bool = False


class Body:
    """A function's tokens."""

    def __init__(self, module, callee):
        self.of, self.me = module, callee
        self.random, self.pick, self.chance = module.random, module.pick, module.chance
        self.names = {callee.name} if callee.recursive else set()
        self.params = [module.name(self.names) for _ in range(callee.params)]
        self.plain = [module.name(self.names) for _ in range(self.random.randint(0, 4))]
        others = [n for n in module.names_of_module if n not in self.names and n != callee.name]
        if others and self.chance(0.15):
            self.plain.append(self.pick(others))
            self.names.add(self.plain[-1])
        self.hidden = self.names  # names of the module that mean something else here
        self.counters, self.breaks, self.continues, self.labels = [], [], [], []
        self.turns, self.size, self.left = 1, 0, 3000
        self.tokens = self._function()

    def visible(self, names):
        return [n for n in names if n not in self.hidden]

    # ---- numbers and variables

    def number(self, n):
        if self.chance(0.12):
            digits = f"{n:x}"
            return self.pick(["0x", "0x", "0X"]) + self.pick(["", "", "0"]) + self.pick([digits, digits, digits.upper()])
        return str(n)

    def literal(self, n):
        return Expr(["-", self.number(-n)], UNARY) if n < 0 else Expr([self.number(n)], SINGLE)

    def any_number(self):
        k = self.random.random()
        if k < 0.45:
            return self.pick(WORDS)
        if k < 0.7:
            return self.pick(NEGATIVE)
        return self.random.randint(-20, 40) if k < 0.85 else self.random.randint(-2**31, 2**32 - 1)

    def any_signed(self):
        n = self.any_number()
        return n if n < 2**31 else n - 2**32

    def assignable(self):
        return self.params + self.plain + self.visible(self.of.int_globals)

    def variable(self):
        names = self.assignable() + self.counters
        return Expr([self.pick(names)], SINGLE) if names else self.literal(self.any_signed())

    # ---- expressions, by type

    def within(self, e, level):
        """The tokens of an expression where one of this level may stand."""
        return ["(", *e.tokens, ")"] if e.level < level or self.chance(0.04) else list(e.tokens)

    def binary(self, op, a, b):
        level = LEVELS[op]
        return Expr(self.within(a, level) + [op] + self.within(b, level + 1), level)

    def listed(self, items):
        tokens = []
        for k, item in enumerate(items):
            tokens += [","] * (k > 0) + item
        return tokens

    def of_math(self, name, depth):
        args = [self.within(self.int(depth), ASSIGNMENT) for _ in range(2 if name == "imul" else 1)]
        return Expr([self.of.math[name], "(", *self.listed(args), ")"], SINGLE)

    def signed(self, depth):
        k = self.random.random()
        if depth <= 0:
            return self.literal(self.any_signed()) if k < 0.35 else self.binary("|", self.variable(), self.literal(0))
        if k < 0.42:
            return self.of_bits(depth - 1)
        if k < 0.50:
            return Expr(["~"] + self.within(self.intish(depth - 1), UNARY), UNARY)
        maths = [n for n, local in self.of.math.items() if local not in self.hidden]
        if k < 0.61 and maths:
            return self.of_math(self.pick(maths), depth - 1)
        call = self.call(depth - 1, True) if 0.61 <= k < 0.75 else None
        if call:
            return Expr(call + ["|", self.number(0)], OR)
        if 0.75 <= k < 0.80 and self.assignable():
            return self.assignment(self.signed(depth - 1))
        return self.after_others(depth, self.signed(depth - 1)) if 0.80 <= k < 0.84 else self.signed(0)

    def of_bits(self, depth):
        op = self.pick(["|", "|", "^", "&", "<<", ">>"])
        a, b = self.intish(depth), self.intish(depth)
        if op == "|" and self.chance(0.35):
            b = self.literal(0)
        if op in ("<<", ">>") and self.chance(0.5):
            b = self.literal(self.pick([0, 1, 2, 3, 8, 16, 24, 31, 32, 33, 100]))
        return self.binary(op, a, b)

    def unsigned(self, depth):
        k = self.random.random()
        if depth <= 0 or k < 0.2:
            return self.literal(self.any_number() % 2**32) if self.chance(0.4) else self.binary(">>>", self.variable(), self.literal(0))
        if k < 0.85:
            count = self.intish(depth - 1) if self.chance(0.4) else self.literal(self.pick([0, 1, 4, 31, 32]))
            return self.binary(">>>", self.intish(depth - 1), count)
        if k < 0.93 and self.assignable():
            return self.assignment(self.unsigned(depth - 1))
        return self.after_others(depth, self.unsigned(depth - 1))

    def comparison(self, depth):
        operand = self.signed if self.chance(0.6) else self.unsigned
        return self.binary(self.pick(["<", "<=", ">", ">=", "==", "!="]), operand(depth - 1), operand(depth - 1))

    def int(self, depth):
        k = self.random.random()
        if depth <= 0:
            return self.variable() if k < 0.7 else self.literal(self.any_number())
        if k < 0.3:
            return self.signed(depth) if k < 0.2 else self.unsigned(depth)
        if k < 0.5:
            return self.int(0)
        if k < 0.62:
            return Expr(["!"] + self.within(self.int(depth - 1), UNARY), UNARY)
        if k < 0.82:
            return self.comparison(depth)
        if k < 0.90:
            a, b, c = (self.within(self.int(depth - 1), level) for level in (OR, ASSIGNMENT, ASSIGNMENT))
            return Expr(a + ["?"] + b + [":"] + c, CONDITIONAL)
        if k < 0.95 and self.assignable():
            return self.assignment(self.int(depth - 1))
        return self.after_others(depth, self.int(depth - 1))

    def intish(self, depth):
        k = self.random.random()
        if depth <= 0 or k < 0.25:
            return self.int(depth)
        if k < 0.5:
            return self.sum(depth - 1)
        if k < 0.58:
            factor = self.literal(self.pick([0, 1, -1, 2, 3, -3, 10, 255, 2**20 - 1, 1 - 2**20, self.random.randint(1 - 2**20, 2**20 - 1)]))
            a, b = self.int(depth - 1), factor
            if self.chance(0.3):
                a, b = b, a
            return Expr(self.within(a, PRODUCT) + ["*"] + self.within(b, UNARY), PRODUCT)
        if k < 0.72:
            return self.quotient(depth - 1)
        if k < 0.78:
            e = self.int(depth - 1)
            return Expr(["-"] + (["(", *e.tokens, ")"] if e.tokens[0][0].isdigit() else self.within(e, UNARY)), UNARY)
        views = self.visible(self.of.views)
        if k < 0.92 and views:
            return self.load(depth, self.pick(views))
        if k < 0.96 and views:
            return self.store(depth, self.pick(views))
        return self.after_others(depth, self.intish(depth - 1))

    def sum(self, depth):
        """A chain of ints: what is added up first isn't a chain itself, since that's no int."""
        tokens = self.within(self.int(depth), PRODUCT)
        for _ in range(self.pick([1, 1, 1, 2, 3, 6])):
            tokens += [self.pick("+-")] + self.within(self.int(depth), PRODUCT)
        if self.chance(0.1):
            tokens = ["(", *tokens, ")", self.pick("+-")] + self.within(self.int(0), PRODUCT)
        return Expr(tokens, SUM)

    def quotient(self, depth):
        signed = self.chance(0.65)
        operand = self.signed if signed else self.unsigned
        a, b = operand(depth), operand(depth)
        if self.chance(0.25):
            b = self.literal(self.pick([0, 1, 2, 3, 10, 2**31 - 1] + ([-1, -2, -2**31] if signed else [2**31, 2**32 - 1])))
        if signed and self.chance(0.12):
            a = self.literal(-2**31)
        return self.binary(self.pick("/%"), a, b)

    def after_others(self, depth, last):
        tokens = []
        for _ in range(self.pick([1, 1, 2])):
            call = self.call(depth - 1, False) if self.chance(0.4) else None
            tokens += call or self.within(self.pick([self.intish, self.signed, self.int])(depth - 1), ASSIGNMENT)
            tokens.append(",")
        return Expr(tokens + self.within(last, ASSIGNMENT), COMMA)

    def assignment(self, e):
        return Expr([self.pick(self.assignable()), "="] + self.within(e, ASSIGNMENT), ASSIGNMENT)

    # ---- the heap

    def index(self, depth, shift):
        """A literal, or an expression that is shifted by as much as the view's words ask for."""
        if self.chance(0.25):
            return [self.number(self.pick([0, 1, 2, 3, 5, 16, 255, 1023, 1024, 4095, 65535, self.random.randint(0, 200), (2**31 - 1) >> shift]))]
        e = self.intish(depth - 1)
        if self.chance(0.7):
            length = self.of.length
            e = self.binary("&", e, self.literal(self.pick([0xF, 0x3F, 0xFF, 0xFFF, length - 1, length - 4, length + 3, 0xFFFC])))
        return self.binary(">>", e, self.literal(shift)).tokens

    def load(self, depth, view):
        return Expr([view, "[", *self.index(depth, self.of.views[view]), "]"], SINGLE)

    def store(self, depth, view):
        e = self.store(depth - 1, view) if depth > 1 and self.chance(0.1) else self.intish(depth - 1)
        return Expr(self.load(depth, view).tokens + ["="] + self.within(e, ASSIGNMENT), ASSIGNMENT)

    # ---- calls

    def call(self, depth, result):
        """The tokens of a call, one with a result that is to be coerced or one without; or None."""
        callees = [c for c in self.of.functions + self.of.tables if c.rank < self.me.rank and c.result == result and c.name not in self.hidden]
        callees = [c for c in callees if c.cost * self.turns <= self.left]
        foreign = self.visible(self.of.foreign_functions)
        if foreign and self.turns <= 12 and self.left > 20 * self.turns and (not callees or self.chance(0.3)):
            self.left -= 20 * self.turns
            args = [self.within(self.signed(depth), ASSIGNMENT) for _ in range(self.pick([0, 1, 1, 2, 3]))]
            return [self.pick(foreign), "(", *self.listed(args), ")"]
        if not callees:
            return None
        callee = self.pick(callees)
        self.left -= callee.cost * self.turns
        entry = ["[", *self.within(self.intish(depth), AND), "&", self.number(len(callee.members) - 1), "]"] if callee.members else []
        args = [self.within(self.int(depth), ASSIGNMENT) for _ in range(callee.params)]
        return [callee.name, *entry, "(", *self.listed(args), ")"]

    # ---- statements

    def block(self, depth, count=None):
        return [t for _ in range(self.random.randint(0, 4) if count is None else count) for t in self.statement(depth)]

    def arm(self, depth):
        return self.simple() if self.chance(0.3) else ["{", *self.block(depth), "}"]

    def expression_statement(self):
        depth, k = self.random.randint(1, 3), self.random.random()
        views = self.visible(self.of.views)
        if k < 0.5 and self.assignable():
            return self.assignment(self.pick([self.int, self.signed, self.unsigned])(depth)).tokens
        if k < 0.75 and views:
            return self.store(depth, self.pick(views)).tokens
        if k < 0.9:
            result = self.chance(0.2)
            call = self.call(depth, result)
            if call:
                return call + ["|", "0"] * result
        return self.pick([self.int, self.intish, self.signed])(depth).tokens

    def simple(self):
        k = self.random.random()
        if k < 0.05:
            return [";"]
        if k < 0.13 and self.breaks:
            label = self.pick(self.breaks)
            return ["break"] + (["JOIN", label] if label else []) + [";?"]
        if k < 0.20 and self.continues:
            label = self.pick(self.continues)
            return ["continue"] + (["JOIN", label] if label else []) + [";?"]
        return self.returning(2) if k < 0.22 else self.expression_statement() + [";?"]

    def returning(self, depth):
        return ["return", "JOIN", *self.signed(depth).tokens, ";?"] if self.me.result else ["return", ";?"]

    def statement(self, depth):
        self.size += 1
        k = self.random.random()
        if depth <= 0 or self.size > 160 or k < 0.5:
            return self.simple()
        if k < 0.67:
            return self.conditional(depth)
        if k < 0.82:
            return self.loop(depth)
        if k < 0.90:
            return self.switch(depth)
        return self.labelled(depth) if k < 0.96 else ["{", *self.block(depth - 1), "}"]

    def conditional(self, depth):
        tokens = ["if", "(", *self.int(2).tokens, ")", *self.arm(depth - 1)]
        while self.chance(0.4):
            if tokens[-1] == ";?":
                tokens[-1] = ";"
            if self.chance(0.7):
                return tokens + ["else", *self.arm(depth - 1)]
            tokens += ["else", "if", "(", *self.int(2).tokens, ")", "{", *self.block(depth - 1), "}"]
        return tokens

    def labelled(self, depth):
        label = self.label()
        breaks = self.breaks
        self.breaks = breaks + [label, label]
        tokens = [] if self.chance(0.8) else ["if", "(", *self.int(2).tokens, ")"]
        tokens = [label, ":", *tokens, "{", *self.block(depth - 1), "}"]
        self.breaks = breaks
        self.labels.remove(label)
        return tokens

    def label(self):
        while True:
            name = self.of.name(set())
            if name not in self.labels:
                self.labels.append(name)
                return name

    def counter(self):
        self.counters.append(self.of.name(self.of.used | self.names))
        self.names.add(self.counters[-1])
        return self.counters[-1]

    def loop(self, depth):
        """Each loop counts its turns in a variable of its own."""
        counter = self.counter()
        turns = self.pick([0, 1, 1, 2, 3, 5, 8])
        if self.turns * turns > 60:
            turns = 1
        labels = [self.label() for _ in range(self.pick([0, 0, 1, 2]))]
        outside = self.breaks, self.continues, self.turns
        self.breaks, self.continues, self.turns = self.breaks + [None] + labels, self.continues + [None] + labels, self.turns * max(turns, 1)
        self.left -= self.turns
        first, onward = [counter, "=", "0"], [counter, "=", counter, "+", "1", "|", "0"]
        goes_on = ["(", counter, "|", "0", ")", "<", self.number(turns)]
        if self.chance(0.15):
            goes_on = ["(", *goes_on, ")", "&", *self.within(self.int(1), EQUALITY)]
        marks = [t for label in labels for t in (label, ":")]
        tokens = self.loop_form(marks, first, goes_on, onward, self.block(depth - 1))
        self.breaks, self.continues, self.turns = outside
        for label in labels:
            self.labels.remove(label)
        return tokens

    def loop_form(self, marks, first, goes_on, onward, body):
        form = self.pick(["while", "for", "do", "ever"])
        if form == "while":
            return first + [";?", *marks, "while", "(", "UNIT,", *goes_on, ")", "{", *onward, ";?", *body, "}"]
        if form == "do":
            return first + [";?", *marks, "do", "{", "UNIT;", *onward, ";?", *body, "}", "while", "(", *goes_on, ")", ";do"]
        if form == "ever":
            head = self.pick([["for", "(", ";", "UNIT", ";", ")"], ["while", "(", "UNIT,", "1", ")"]])
            leave = self.pick([["break", ";"], ["{", "break", ";?", "}"]])
            return first + [";?", *marks, *head, "{", "if", "(", "!", "(", *goes_on, ")", ")", *leave, *onward, ";?", *body, "}"]
        call = self.call(1, False) if self.chance(0.3) else None
        onward = call + [",", *onward] if call else onward
        start = first if self.chance(0.5) else None
        return (first + [";?"] if start is None else []) + [*marks, "for", "(", *(start or []), ";", "UNIT,", *goes_on, ";", *onward, ")", "{", *body, "}"]

    def switch(self, depth):
        base = self.pick([0, 0, 1, -2, 100, -2**31, 2**31 - 9])
        values = list({base + self.random.randint(0, 8) for _ in range(self.random.randint(0, 5))})
        self.random.shuffle(values)
        subject = self.binary("&", self.intish(2), self.literal(7))
        if base and self.chance(0.7):
            subject = Expr(["(", *self.within(subject, SINGLE), "+", *self.literal(base).tokens, ")", "|", "0"], OR)
        elif self.chance(0.3):
            subject = self.signed(2)
        breaks = self.breaks
        self.breaks = breaks + [None]
        tokens = ["switch", "(", *subject.tokens, ")", "{"]
        for value in values:
            tokens += ["case", *self.literal(value).tokens, ":", *self.block(depth - 1, self.random.randint(0, 2))]
            tokens += ["break", ";?"] * self.chance(0.6)
        if self.chance(0.6):
            tokens += ["default", ":", *self.block(depth - 1, self.random.randint(0, 2))]
        self.breaks = breaks
        return tokens + ["}"]

    # ---- the function

    def _function(self):
        code = self.recursion() if self.me.recursive else self.block(self.random.randint(1, 3), self.random.randint(1, 5)) + self.shown()
        if not self.me.recursive:
            self.me.cost = 3001 - self.left
        tokens = ["function", self.me.name, "(", *self.listed([[p] for p in self.params]), ")", "{"]
        for p in self.params:
            tokens += [p, "=", p, "|", "0", ";?"]
        names = self.plain + self.counters
        self.random.shuffle(names)
        while names:
            count = self.pick([1, 2, len(names)])
            first = [[n, "=", *self.literal(self.any_number() if self.chance(0.5) else 0).tokens] for n in names[:count]]
            tokens += ["var", *self.listed(first), ";?"]
            names = names[count:]
        return tokens + ["UNIT;", *code, "}"]

    def recursion(self):
        """Calls itself with its first argument lowered, at most 15 times."""
        first = self.params[0]
        self.me.cost = 20
        args = self.listed([[first]] + [self.within(self.int(1), ASSIGNMENT) for _ in self.params[1:]])
        again = [self.me.name, "(", *args, ")"]
        stop = ["if", "(", "(", first, "|", "0", ")", "<=", "0", ")", "{", *self.returning(1), "}"]
        lower = [first, "=", "(", first, "&", "15", ")", "-", "1", "|", "0", ";?"]
        last = ["return", "JOIN", "(", *again, "|", "0", ")", "+", first, "|", "0"] if self.me.result else again
        return stop + lower + last + [";?"]

    def shown(self):
        """Statements that make seen what was computed: in the heap, or mixed into the result."""
        names, views = self.assignable()[:12], self.visible(self.of.views)
        tokens = []
        if views and self.chance(0.7):
            view = self.pick(views)
            for k, name in enumerate(names):
                tokens += [view, "[", str(40 + 24 * self.me.rank + k), "]", "=", name, ";?"]
        if not self.me.result:
            return tokens + ["return", ";?"] * self.chance(0.2)
        if not names or self.chance(0.3):
            return tokens + self.returning(3)
        mixed = [names[0]]
        for name in names[1:]:
            mixed = ["(", *mixed, ")", "<<", "5", "^", name, "^", name, ">>>", "27"]
        return tokens + ["return", "JOIN", "(", *mixed, ")", "|", "0", ";?"]
