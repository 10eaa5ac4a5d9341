"""Random modules of WebAssembly that `bridge wasm2js` takes, each with a script that fits."""
import random
from dataclasses import dataclass, field

import wasm_bodies
from scripts import Call, Reply, Script, import_name
from wasm_bytes import FUNCTION, GLOBAL, I32, I64, MEMORY, TABLE, Function, Import, Module, const32, const64, global_get, signed_reading

PAGE = 65536
ODD_NAMES = ["", "a b", "$x61", "$hi", "$init", "$high", "\u00e9\u20ac", "__proto__", "0a", "x-y", "default", "\U0001F600", "%41", "#c", "a\nb", "\x7f", "eval", "while"]
WORDS = [0, 1, 2, 3, 4, 5, 7, 8, 31, 32, 33, 63, 64, 127, 128, 255, 256, 4096, 32767, 32768, 65520, 65528, 65532, 65535, 65536, 65537]
WORDS += [2**31 - 2, 2**31 - 1, 2**31, 2**31 + 1, 2**32 - 1, 2**32 - 2, 2**32 - 4, 2**32 - 8, 2**32 - 128, 2**32 - 32768]
WIDE_WORDS = WORDS + [2**32, 2**32 + 1, 2**33, 2**53, 2**62, 2**63 - 1, 2**63, 2**63 + 1, 2**64 - 1, 2**64 - 2, 2**64 - 2**32, 2**64 - 2**31]
WIDE_WORDS += [0x0123456789ABCDEF, 0xFFFFFFFF00000000]


@dataclass
class Callee:
    """A function that bodies may call: one of a smaller rank, where its cost is within what is left."""

    params: list
    results: list
    type: int
    rank: int
    cost: int
    locals: list = field(default_factory=list)
    code: list = field(default_factory=list)


class WasmModule:
    """`module`, `script`, and what the engine's host must know."""

    def __init__(self, seed):
        self.random = random.Random(f"wasm {seed}")
        self.module = Module()
        self.callees = []
        self.import_names = []  # by the number of the import
        self.globals = []  # (type, whether it changes)
        self.fuel = None  # the global that bounds calls through the table
        self.entries = None  # the table's, or None without a table
        self._memory()
        self._imports()
        self._functions()
        self._globals()
        self._table()
        self._bodies()
        self._exports()
        self._segments()
        self.script = self._script()

    # ---- chances

    def pick(self, items):
        return self.random.choice(items)

    def chance(self, p):
        return self.random.random() < p

    def bytes(self, length):
        return bytes(self.random.randrange(256) for _ in range(length))

    def word(self):
        if self.chance(0.6):
            return self.pick(WORDS)
        return self.random.randint(0, 100) if self.chance(0.6) else self.random.getrandbits(32)

    def wide_word(self):
        if self.chance(0.5):
            return self.pick(WIDE_WORDS)
        return self.random.randint(0, 100) if self.chance(0.25) else self.random.getrandbits(64)

    def constant(self, kind):
        return const32(self.word()) if kind == I32 else const64(self.wide_word())

    def name(self):
        return "".join(self.pick("abcdefghij_XYZ$") for _ in range(self.random.randint(1, 5)))

    def signature(self, lengths):
        params = [self.pick([I32, I32, I64]) for _ in range(self.pick(lengths))]
        return params, self.pick([[], [I32], [I32], [I64]])

    # ---- parts of the module

    def _memory(self):
        kind = self.pick([None, "own", "own", "own", "imported"])
        self.pages = None if kind is None else self.pick([0, 1, 1, 1, 2, 3])
        most = None if kind is None or self.chance(0.5) else self.pages + self.pick([0, 1, 5])
        self.memory_is_imported = kind == "imported"
        self.limits = None if kind is None else (self.pages, most)
        if kind == "own":
            self.module.memory = self.limits

    def _imports(self):
        kinds = [FUNCTION] * self.pick([0, 1, 1, 2, 3, 4]) + [GLOBAL] * self.pick([0, 0, 1, 2]) + [MEMORY] * self.memory_is_imported
        self.random.shuffle(kinds)
        self.taken = {}  # what each pair of names is imported as
        for kind in kinds:
            module, name = self._import_names(kind)
            if kind == FUNCTION:
                module, name, params, results = self._imported_function(module, name)
                detail = self.module.type(params, results)
                self.callees.append(Callee(params, results, detail, -1, 15))
            elif kind == GLOBAL:
                detail = I32
                self.globals.append((I32, False))
            else:
                module, name, detail = *(("env", "memory") if self.chance(0.7) else (module, name)), self.limits
            self.taken[module, name] = kind
            self.module.imports.append(Import(module, name, kind, detail))
            self.import_names.append(import_name(module, name))

    def _import_names(self, kind):
        k = self.random.random()
        if k < 0.6:
            pair = ("env", self.name())
        elif k < 0.75:
            pair = ("env", self.pick(ODD_NAMES))
        else:
            pair = (self.pick(["a", "", "env2", "\u00e9"]), self.name())
        # A name is one of a function or of a value; `$high` is a function's alone.
        if self.taken.get(pair, kind) != kind or pair == ("env", "$high"):
            return pair[0], f"{pair[1]}q{len(self.module.imports)}"
        return pair

    def _imported_function(self, module, name):
        k = self.random.random()
        if k < 0.05 and self.taken.get(("env", "$trap"), FUNCTION) == FUNCTION:
            return "env", "$trap", [I32], []
        if k < 0.12 and self.taken.get(("env", "$high"), FUNCTION) == FUNCTION:
            return "env", "$high", self.pick([[], [I32], [I64]]), self.pick([[I32], []])
        same = [pair for pair, kind in self.taken.items() if kind == FUNCTION and pair not in (("env", "$trap"), ("env", "$high"))]
        if same and self.chance(0.15):
            module, name = self.pick(same)
        return module, name, *self.signature([0, 1, 1, 2, 4])

    def _functions(self):
        self.own = []
        count = self.random.randint(1, 6)
        ranks = list(range(count))
        self.random.shuffle(ranks)
        for rank in ranks:
            params, results = self.signature([0, 1, 1, 2, 3, 5])
            if self.own and self.chance(0.4):
                params, results = self.pick(self.own).params, self.own[0].results
            self.own.append(Callee(params, results, self.module.type(params, results), rank, 10**9))
        self.callees += self.own
        if self.chance(0.3):
            self.module.types.append(self.pick(self.module.types))
        if self.chance(0.3):
            self.module.type([I64, I32, I64], [I64])

    def _globals(self):
        for _ in range(self.random.randint(0, 3)):
            kind, changes = self.pick([I32, I64]), self.chance(0.7)
            given = [k for k, (t, _) in enumerate(self.globals) if t == kind and k < sum(i.kind == GLOBAL for i in self.module.imports)]
            self.module.globals.append((kind, changes, global_get(self.pick(given)) if given and self.chance(0.3) else self.constant(kind)))
            self.globals.append((kind, changes))

    def _table(self):
        if self.chance(0.4):
            return
        length = self.pick([0, 1, 2, 3, 4, 5, 8, 10])
        self.module.table = (length, None if self.chance(0.5) else length + self.pick([0, 3]))
        self.entries = [None] * length
        for _ in range(self.pick([0, 1, 1, 2, 3]) if length else 0):
            at = self.random.randint(0, length)
            functions = [self.random.randrange(len(self.callees)) for _ in range(self.random.randint(0, length - at))]
            self.module.elements.append((at, functions))
            self.entries[at:at + len(functions)] = functions
        self.fuel = len(self.globals)
        self.module.globals.append((I32, True, const32(self.pick([30, 100, 200]))))
        self.globals.append((I32, True))

    def _bodies(self):
        for callee in sorted(self.own, key=lambda f: f.rank):
            wasm_bodies.Body(self, callee).fill()
        for callee in self.own:
            alike = [k for k, t in enumerate(self.module.types) if t == self.module.types[callee.type]]
            self.module.functions.append(Function(self.pick(alike), callee.locals, callee.code))

    def _exports(self):
        self.exported = {}  # functions by name
        everyone = list(range(len(self.callees)))
        self.random.shuffle(everyone)
        for f in everyone[:self.pick([1, 3, 5, 9])] + [self.pick(everyone)]:
            self.exported[self.pick(ODD_NAMES) if self.chance(0.25) else self.name()] = f
        self.module.exports = [(name, FUNCTION, f) for name, f in self.exported.items()]
        others = [("mem", MEMORY, 0)] * (self.limits is not None) + [("tab", TABLE, 0)] * (self.entries is not None) + [("glo", GLOBAL, 0)] * bool(self.globals)
        if self.chance(0.3):
            self.module.exports += [e for e in others if e[0] not in self.exported]
        starts = [k for k, f in enumerate(self.callees) if not f.params and not f.results]
        if starts and self.chance(0.5):
            self.module.start = self.pick(starts)

    def _segments(self):
        size = (self.pages or 0) * PAGE
        if not size:
            return
        if self.chance(0.85):
            self.module.segments.append((self.pick([0, 3]), self.bytes(self.pick([100, 256, 400]))))
        for _ in range(self.pick([0, 0, 1, 2, 3])):
            data = self.bytes(self.pick([0, 1, 4, 16, 21, 40]))
            self.module.segments.append((self.pick([0, 1, self.random.randint(0, 1200), size - len(data)]), data))
        if self.chance(0.3):
            for _ in range(self.pick([1, 1, 2])):
                data = self._long_data()
                self.module.segments.append((self.pick([0, 1, 2, 3, self.random.randint(0, 600), size - len(data)]), data))

    def _long_data(self):
        """Bytes of about as many as `wasm2js` writes by calls, among them runs of zeros that begin and end anywhere."""
        length = self.pick([511, 512, 513, 514, 515, 574, 575, 576, 577, 639, 640, 700, 1100])
        runs = b""
        while len(runs) < length:
            count = self.pick([1, 3, 40, 63, 64, 65, 128, 200, 300])
            runs += bytes(count) if self.chance(0.5) else self.bytes(count)
        return runs[:length]

    # ---- the script

    def _script(self):
        script = Script()
        for k, item in enumerate(self.module.imports):
            if item.kind == GLOBAL:
                value = self.word()
                script.globals[self.import_names[k]] = signed_reading(value, 32) if self.chance(0.3) else value
        size = (self.pages or 0) * PAGE
        if self.memory_is_imported and size:
            for _ in range(self.pick([0, 1, 3])):
                data = self.bytes(self.pick([1, 4, 16, 33]))
                script.heap.append((self.pick([0, self.random.randint(0, 99), size - len(data)]), data))
        names = list(self.exported)
        for k in range(self.pick([0, 1, 2, 4, 6, 6, 8, 12, 16])):
            name = self.pick(names) if self.chance(0.4) else names[k % len(names)]
            callee = self.callees[self.exported[name]]
            args = [self._argument(t) for t in callee.params]
            script.calls.append(Call(name, args, tuple(callee.params), tuple(callee.results)))
        if any(i.kind == FUNCTION for i in self.module.imports):
            count = self.random.randint(0, 3) if self.chance(0.15) else self.random.randint(20, 80)
            script.replies = [self._reply(size) for _ in range(count)]
        return script

    def _argument(self, kind):
        n = self.word() if kind == I32 else self.wide_word()
        return signed_reading(n, 32 if kind == I32 else 64) if self.chance(0.3) else n

    def _reply(self, size):
        if self.chance(0.01):
            return None
        writes = []
        if size and self.chance(0.2):
            data = self.bytes(self.pick([1, 2, 4, 9]))
            writes.append((self.pick([self.random.randint(0, 300), size - len(data)]), data))
        return Reply(self.wide_word(), writes)
