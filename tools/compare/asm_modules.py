"""Random modules of asm.js that `bridge asm2wasm` takes, each with a script that fits."""
import random

import asm_bodies
from asm_bodies import Callee
from scripts import Call, Reply, Script

LETTERS = "abcdefghijklmnopqrstuvwxyzABCDEFGHIJKLMNOPQRSTUVWXYZ_$"
RESERVED = set(
    "break case catch class const continue debugger default delete do else enum export extends false finally for function if import in instanceof let new null return "
    "super switch this throw true try typeof var void while with yield arguments eval __proto__ await static".split())
VIEWS = {"Int8Array": 0, "Uint8Array": 0, "Int16Array": 1, "Uint16Array": 1, "Int32Array": 2, "Uint32Array": 2}
# Two tokens that spell one of these need a gap.
LONG_TOKENS = {"<<", ">>", "==", "!=", "<=", ">=", "++", "--", "&&", "||", "=>", "//", "/*"}
# Words after which a statement may begin on a new line without a semicolon before it.
STARTERS = {"var", "if", "return", "while", "for", "do", "switch", "break", "continue", "function"}
# Semicolons that may be left out, and where no line may end, as they stand on one line.
PLAIN = {";?": ";", ";do": ";", "JOIN": ""}
ODD_MEMBERS = ["new", "if", "default", "arguments_", "__proto", "delete", "$xab", "$x"]


class AsmModule:
    """`text`, and `counted`, which takes each unit of a run by a call of `$$take_unit$$`; `script`, `length` of the heap, and what the engine's host must know."""

    def __init__(self, seed):
        self.random = random.Random(f"asm {seed}")
        self.used = set()
        self.length = self.pick([4096, 4096, 8192, 65536, 65536, 131072])
        self.views, self.math, self.int_globals, self.foreign_functions = {}, {}, [], []
        self.members, self.given = set(), []  # names of members of the foreign object, and those that are ints
        self.params = [self.name(self.used) for _ in range(3)]
        self.declared = self._declarations()
        self.names_of_module = [d[0] for d in self.declared]
        self.functions, self.tables, self.exports = [], [], []
        tokens = self._tokens()
        self.text = Layout(self.random).of([t for t in tokens if t not in asm_bodies.UNITS])
        self.counted = " ".join(asm_bodies.UNITS.get(t, PLAIN.get(t, t)) for t in tokens)
        self.script = self._script()

    # ---- chances

    def pick(self, items):
        return self.random.choice(items)

    def chance(self, p):
        return self.random.random() < p

    def bytes(self, length):
        return bytes(self.random.randrange(256) for _ in range(length))

    def name(self, used):
        while True:
            length = self.pick([0, 0, 1, 2, 3, 8])
            name = self.pick(LETTERS) + "".join(self.pick(LETTERS + "0123456789") for _ in range(length))
            if name not in RESERVED and name not in used:
                used.add(name)
                return name

    def member(self):
        odd = self.pick(ODD_MEMBERS)
        if odd in self.members or self.chance(0.85):
            return self.name(self.members)
        self.members.add(odd)
        return odd

    def any_number(self):
        if self.chance(0.7):
            return self.pick(asm_bodies.WORDS + asm_bodies.NEGATIVE)
        return self.random.randint(-2**31, 2**32 - 1)

    # ---- declarations

    def _declarations(self):
        stdlib, foreign, heap = self.params
        declared = []

        def declare(names, *init):
            name = self.name(self.used)
            if isinstance(names, list):
                names.append(name)
            declared.append([name, "=", *init])
            return name

        if self.chance(0.8):
            for view in self.random.sample(list(VIEWS), self.random.randint(1, 6)):
                self.views[declare(None, "new", stdlib, ".", view, "(", heap, ")")] = VIEWS[view]
        for function in ("imul", "clz32"):
            if self.chance(0.7):
                self.math[function] = declare(None, stdlib, ".", "Math", ".", function)
        for member in self._foreign_names():
            declare(self.foreign_functions, foreign, ".", member)
        for _ in range(self.pick([0, 0, 1, 2])):
            self.given.append(self.member())
            for _ in range(self.pick([1, 1, 2])):
                declare(self.int_globals, foreign, ".", self.given[-1], "|", "0")
        for _ in range(self.random.randint(0, 3)):
            n = self.any_number()
            declare(self.int_globals, *(["-", str(-n)] if n < 0 else [str(n)]))
        for init in self.random.sample(self._unused(), self.pick([0, 0, 1, 3])):
            declare(None, *init)
        self.random.shuffle(declared)
        return declared

    def _foreign_names(self):
        """One for each declaration of a foreign function; two may be of the same member."""
        self.imported = []
        for _ in range(self.pick([0, 1, 1, 2, 3])):
            k = self.random.random()
            special = "$trap" if k < 0.04 else "$high" if k < 0.16 else None
            self.imported.append(special if special and special not in self.imported else self.member())
        return self.imported + ([self.pick(self.imported)] if self.imported and self.chance(0.2) else [])

    def _unused(self):
        """What isn't of the integer part may be declared, and isn't used."""
        stdlib, foreign, heap = self.params
        inits = ["0.0", "- 1.5", f"{stdlib} . NaN", f"{stdlib} . Infinity", f"{stdlib} . Math . floor", f"{stdlib} . Math . sqrt", f"{stdlib} . Math . PI"]
        inits += [f"new {stdlib} . Float64Array ( {heap} )", f"new {stdlib} . Float32Array ( {heap} )"]
        return [init.split() for init in inits]

    # ---- functions, tables, exports

    def _tokens(self):
        bodies = self._bodies()
        tokens = ["function"] + ([self.name(self.used)] if self.chance(0.9) else []) + ["("]
        needed = 3 if any("new" in d for d in self.declared) else 2 if any(self.params[1] in d for d in self.declared) else 1
        tokens += self._listed([[p] for p in self.params[:self.random.randint(needed, 3)]]) + [")", "{", self.pick(['"use asm"', "'use asm'"]), ";"]
        tokens += self._declared_in_groups(self.declared)
        for body in bodies:
            tokens += body
        tables = [[t.name, "=", "[", *self._listed([[m] for m in t.members]), "]"] for t in self.tables]
        self.random.shuffle(tables)
        tokens += self._declared_in_groups(tables) + self._exported() + ["}"]
        return tokens + [";"] * self.chance(0.1)

    def _listed(self, items):
        return [t for k, item in enumerate(items) for t in [","] * (k > 0) + item]

    def _declared_in_groups(self, declared):
        tokens = []
        while declared:
            count = self.pick([1, 1, 2, 4])
            tokens += ["var", *self._listed(declared[:count]), ";?"]
            declared = declared[count:]
        return tokens

    def _bodies(self):
        count = self.random.randint(1, 6)
        ranks = list(range(count))
        self.random.shuffle(ranks)
        forms = [(self.pick([0, 1, 1, 2, 3, 5]), self.chance(0.65)) for _ in range(max(1, count // 2))]
        for rank in ranks:
            params, result = self.pick(forms)
            callee = Callee(self.name(self.used), params, result, rank, 10**9, None, params > 0 and self.chance(0.12))
            self.functions.append(callee)
            self.names_of_module.append(callee.name)
        tabled = self.chance(0.6)
        bodies = {}
        for callee in sorted(self.functions, key=lambda c: c.rank):
            bodies[callee.name] = asm_bodies.Body(self, callee).tokens
            if tabled and self.chance(0.6):
                self._add_table(callee)
        return [bodies[c.name] for c in self.functions]

    def _add_table(self, last):
        alike = [c for c in self.functions if c.rank <= last.rank and (c.params, c.result) == (last.params, last.result)]
        members = [self.pick(alike) for _ in range(self.pick([1, 2, 4, 8]))]
        rank, cost = max(c.rank for c in members), max(c.cost for c in members)
        self.tables.append(Callee(self.name(self.used), last.params, last.result, rank, cost, [c.name for c in members]))
        self.names_of_module.append(self.tables[-1].name)

    def _exported(self):
        if self.chance(0.25):
            callee = self.pick(self.functions)
            self.exports = [(callee.name, callee)]
            return ["return", "JOIN", callee.name, ";?"]
        keys = set()
        for callee in self.random.sample(self.functions, self.random.randint(1, len(self.functions))):
            key = self.pick([callee.name, *ODD_MEMBERS]) if self.chance(0.6) else self.name(keys)
            if key in keys and key != callee.name or any(key == k for k, _ in self.exports):
                key = self.name(keys)
            keys.add(key)
            self.exports.append((key, callee))
        pairs = self._listed([[key, ":", callee.name] for key, callee in self.exports])
        return ["return", "JOIN", "{", *pairs, *[","] * self.chance(0.1), "}", ";?"]

    # ---- the script

    def _script(self):
        script = Script({name: self.any_number() for name in self.given})
        for _ in range(self.pick([0, 0, 1, 3]) if self.views else 0):
            data = self.bytes(self.pick([1, 2, 4, 8, 16, 33]))
            script.heap.append((self.pick([0, self.random.randint(0, 64), self.length - len(data), self.random.randint(0, self.length - len(data))]), data))
        for _ in range(self.pick([0, 1, 2, 3, 4, 6, 8])):
            name, callee = self.pick(self.exports)
            script.calls.append(Call(name, [self.any_number() for _ in range(callee.params)]))
        if self.foreign_functions:
            count = self.random.randint(0, 3) if self.chance(0.15) else self.random.randint(15, 60)
            script.replies = [self._reply() for _ in range(count)]
        return script

    def _reply(self):
        if self.chance(0.01):
            return None
        word = self.any_number() if self.chance(0.8) else self.random.randint(-2**63, 2**64 - 1)
        writes = []
        for _ in range(self.pick([0, 0, 0, 0, 1, 2]) if self.views else 0):
            data = self.bytes(self.pick([1, 2, 4, 5]))
            writes.append((self.pick([self.random.randint(0, 300), self.length - len(data)]), data))
        return Reply(word, writes)


class Layout:
    """Tokens as a text, with gaps and semicolons as the grammar lets them be."""

    GAPS = [" ", "  ", "\t", "/* c */", " /**/ ", "\v", "\f", "/*\u00e9*/"]
    LINE_ENDS = ["\n", "\r\n", "// x y\n", "/* a\n b */", " \n", "//\n", "\r"]

    def __init__(self, chances):
        self.random = chances
        self.style = chances.choice(["tight", "loose", "wild"])

    def of(self, tokens):
        text, before, joined = [], "", False
        for k, token in enumerate(tokens):
            if token == "JOIN":
                joined = True
                continue
            after = next((t for t in tokens[k + 1:] if t != "JOIN"), "")
            token = self._semicolon(token, after)
            text.append(self._gap(before, token, joined) + token if token.strip() else token)
            before, joined = token or before, False
        return "".join(text) + "\n" * (self.random.random() < 0.2)

    def _semicolon(self, token, after):
        """A semicolon that may be left out: before a closing brace, before a new line, or after `do`."""
        if token not in (";?", ";do"):
            return token
        k = self.random.random()
        if self.style == "tight" or token == ";do" and (k > 0.3 or after == ";"):
            return ";"
        if token == ";do" or after == "}" and k < 0.3:
            return ""
        starts = after and (after[0] in LETTERS and after not in RESERVED - STARTERS or after[0].isdigit())
        return "\n" if starts and k < 0.15 else ";"

    def _gap(self, before, token, joined):
        gap = ""
        if before and before != "\n":
            letters = LETTERS + "0123456789"
            touching = before[-1] in letters and token[0] in letters or before[-1].isdigit() and token == "."
            if touching or before[-1] + token[0] in LONG_TOKENS:
                gap = " "
        if self.style == "loose" and not gap:
            line = (token == "}" or before in (";", "{", "}")) and not joined
            gap = "\n" if line else " " if token in ("=", "+", "|", "<", "&") or before in ("=", "+", "|", ",", "<", "&") else ""
        if self.style == "wild" and self.random.random() < 0.2:
            wild = self.random.choice(self.GAPS if joined else self.GAPS + self.LINE_ENDS)
            gap += " " + wild if wild[0] == "/" and before == "/" else wild
        return gap
