"""The binary format of WebAssembly (Core Specification 1.0, chapter 5), as far as random modules use it."""
from dataclasses import dataclass, field

I32, I64 = 0x7F, 0x7E
EMPTY = 0x40  # the type of a block without a result
HEADER = b"\x00asm\x01\x00\x00\x00"
FUNCTION, TABLE, MEMORY, GLOBAL = range(4)


def unsigned(n):
    """LEB128."""
    out = bytearray()
    while n > 127:
        out.append(n & 127 | 128)
        n >>= 7
    return bytes(out + bytes([n]))


def signed(n):
    """LEB128 in two's complement."""
    out = bytearray()
    while not -64 <= n < 64:
        out.append(n & 127 | 128)
        n >>= 7
    return bytes(out + bytes([n & 127]))


def signed_reading(n, bits):
    n &= 2**bits - 1
    return n - 2**bits if n >> (bits - 1) else n


def vector(items):
    return unsigned(len(items)) + b"".join(items)


def name(text):
    data = text.encode()
    return unsigned(len(data)) + data


def section(number, content):
    return bytes([number]) + unsigned(len(content)) + content


def limits(least, most):
    return b"\x00" + unsigned(least) if most is None else b"\x01" + unsigned(least) + unsigned(most)


# ---- instructions


def const32(n):
    return b"\x41" + signed(signed_reading(n, 32))


def const64(n):
    return b"\x42" + signed(signed_reading(n, 64))


def local_get(x):
    return b"\x20" + unsigned(x)


def local_set(x):
    return b"\x21" + unsigned(x)


def local_tee(x):
    return b"\x22" + unsigned(x)


def global_get(x):
    return b"\x23" + unsigned(x)


def global_set(x):
    return b"\x24" + unsigned(x)


def call(f):
    return b"\x10" + unsigned(f)


def branch(label):
    return b"\x0c" + unsigned(label)


def branch_if(label):
    return b"\x0d" + unsigned(label)


def branch_table(labels, otherwise):
    return b"\x0e" + vector([unsigned(k) for k in labels]) + unsigned(otherwise)


def access(opcode, alignment, offset):
    return bytes([opcode]) + unsigned(alignment) + unsigned(offset)


@dataclass(frozen=True)
class IndirectCall:
    """A call through the table, which an engine's module records the entry of."""

    type: int

    def code(self, record):
        kept = b"" if record is None else global_set(record) + global_get(record)
        return kept + b"\x11" + unsigned(self.type) + b"\x00"


# ---- modules


@dataclass
class Import:
    module: str
    field: str
    kind: int
    detail: object  # a number of a type, the limits of a memory, or the type of a constant global

    def code(self):
        if self.kind == FUNCTION:
            tail = unsigned(self.detail)
        elif self.kind == MEMORY:
            tail = limits(*self.detail)
        else:
            tail = bytes([self.detail, 0])
        return name(self.module) + name(self.field) + bytes([self.kind]) + tail


@dataclass
class Function:
    type: int
    locals: list
    code: list  # bytes and indirect calls

    def body(self, record):
        groups = vector([unsigned(1) + bytes([t]) for t in self.locals])
        parts = [p if isinstance(p, bytes) else p.code(record) for p in self.code]
        content = groups + b"".join(parts) + b"\x0b"
        return unsigned(len(content)) + content


@dataclass
class Module:
    """Imported functions and globals come first in their numbering."""

    types: list = field(default_factory=list)  # (parameters, results)
    imports: list = field(default_factory=list)
    functions: list = field(default_factory=list)
    table: tuple = None
    memory: tuple = None
    globals: list = field(default_factory=list)  # (type, whether it changes, initialiser)
    exports: list = field(default_factory=list)  # (name, kind, number)
    start: int = None
    elements: list = field(default_factory=list)  # (offset, functions)
    segments: list = field(default_factory=list)  # (offset, bytes)

    def type(self, params, results):
        wanted = (tuple(params), tuple(results))
        if wanted not in self.types:
            self.types.append(wanted)
        return self.types.index(wanted)

    def bytes(self):
        memories = [] if self.memory is None else [limits(*self.memory)]
        return self._bytes(self.imports, memories, self.globals, self.exports, self.start, None)

    def for_engine(self):
        """The same with what an engine's host needs: each import by its number, memory among them; functions and table exported
        by number too; the start function exported and not run; and the entry of the last indirect call in a global."""
        imports = [Import("import", "memory" if i.kind == MEMORY else str(k), i.kind, i.detail) for k, i in enumerate(self.imports)]
        if self.memory is not None:
            imports.append(Import("import", "memory", MEMORY, self.memory))
        record = len(self.globals) + sum(i.kind == GLOBAL for i in self.imports)
        exports = [("entry", GLOBAL, record)] + [(f"f{k}", FUNCTION, f) for k, (_, kind, f) in enumerate(self.exports) if kind == FUNCTION]
        if self.table is not None:
            exports.append(("table", TABLE, 0))
        if self.start is not None:
            exports.append(("start", FUNCTION, self.start))
        return self._bytes(imports, [], self.globals + [(I32, True, const32(0))], exports, None, record)

    def _bytes(self, imports, memories, variables, exports, start, record):
        def kinds(types):
            return vector([bytes([t]) for t in types])

        sections = [
            (1, [b"\x60" + kinds(params) + kinds(results) for params, results in self.types]),
            (2, [i.code() for i in imports]),
            (3, [unsigned(f.type) for f in self.functions]),
            (4, [] if self.table is None else [b"\x70" + limits(*self.table)]),
            (5, memories),
            (6, [bytes([t, changes]) + init + b"\x0b" for t, changes, init in variables]),
            (7, [name(n) + bytes([kind]) + unsigned(x) for n, kind, x in exports]),
            (9, [b"\x00" + const32(at) + b"\x0b" + vector([unsigned(f) for f in fs]) for at, fs in self.elements]),
            (10, [f.body(record) for f in self.functions]),
            (11, [b"\x00" + const32(at) + b"\x0b" + unsigned(len(data)) + data for at, data in self.segments]),
        ]
        coded = [(number, section(number, vector(items))) for number, items in sections if items]
        if start is not None:
            coded.append((8, section(8, unsigned(start))))
        return HEADER + b"".join(content for _, content in sorted(coded))
