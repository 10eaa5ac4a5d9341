"""Hostile modules of WebAssembly: each family gives the bytes for a count."""
import colliding
from wasm_module import section, signed, sized, unsigned, vector

HEADER = b"\x00asm\x01\x00\x00\x00"
NO_TYPE = b"\x60\x00\x00"


def module(*sections):
    return HEADER + b"".join(sections)


def body(code, locals_of=()):
    return sized(vector([unsigned(count) + kind for count, kind in locals_of]) + code + b"\x0b")


def one(code, locals_of=(), kind=NO_TYPE, before=()):
    """A module of one function, exported as `f`."""
    return module(
        section(1, vector([kind])),
        section(3, vector([b"\x00"])),
        *before,
        section(7, vector([sized(b"f") + b"\x00\x00"])),
        section(10, vector([body(code, locals_of)])),
    )


def importing_memory():
    """A module of one function, exported as `f`, over an imported memory of one page."""
    return module(
        section(1, vector([NO_TYPE])),
        section(2, vector([sized(b"env") + sized(b"m") + b"\x02\x00\x01"])),
        section(3, vector([b"\x00"])),
        section(7, vector([sized(b"f") + b"\x00\x00"])),
        section(10, vector([body(b"")])),
    )


def alike(count, code, kind=NO_TYPE, locals_of=()):
    """A module of so many functions alike."""
    return module(
        section(1, vector([kind])),
        section(3, vector([b"\x00"] * count)),
        section(10, vector([body(code, locals_of)] * count)),
    )


def kind_of(parameters, results=()):
    return b"\x60" + vector([b"\x7f"] * parameters) + vector(list(results))


def nested(count, begin, inside=b"", end=b"\x0b"):
    return one(begin * count + inside + end * count)


def kinds(count):
    """So many types, told apart by their parameters."""
    shapes = [format(i + 1, "b")[1:].translate({48: 0x7F, 49: 0x7E}) for i in range(count)]
    return vector([b"\x60" + vector([bytes([ord(it)]) for it in shape]) + b"\x00" for shape in shapes])


def calls_by_types(count, calls):
    """Calls of entries of a table of one, by types that take nothing but for their number."""
    code = b"".join(b"\x41\x00\x11" + unsigned(count - 1) + b"\x00" for _ in range(calls))
    types = vector([kind_of(0)] * count)
    return module(
        section(1, types),
        section(3, vector([b"\x00"])),
        section(4, vector([b"\x70\x00\x01"])),
        section(7, vector([sized(b"f") + b"\x00\x00"])),
        section(10, vector([body(code)])),
    )


def calls_by_other_types(count, calls):
    """Calls of entries by types that all differ: the last two of so many."""
    shapes = kinds(count)
    last = bin(count)[3:]
    pushed = b"".join(b"\x41\x00" if it == "0" else b"\x42\x00" for it in last)
    code = (pushed + b"\x41\x00\x11" + unsigned(count - 1) + b"\x00") * calls
    return module(
        section(1, shapes),
        section(3, vector([b"\x00"])),
        section(4, vector([b"\x70\x00\x01"])),
        section(7, vector([sized(b"f") + b"\x00\x00"])),
        section(10, vector([body(code)])),
    )


def exports(count, name=lambda i: b"e%d" % i):
    return module(
        section(1, vector([NO_TYPE])),
        section(3, vector([b"\x00"])),
        section(7, vector([sized(name(i)) + b"\x00\x00" for i in range(count)])),
        section(10, vector([body(b"")])),
    )


def imports(count, name=lambda i: b"i%d" % i, kind=b"\x00\x00"):
    return module(section(1, vector([NO_TYPE])), section(2, vector([sized(b"env") + sized(name(i)) + kind for i in range(count)])))


def segments(count, content=b"\x01"):
    return module(section(5, vector([b"\x00\x01"])), section(11, vector([b"\x00\x41\x00\x0b" + sized(content)] * count)))


def elements(count, entries=1, table=1):
    return module(
        section(1, vector([NO_TYPE])),
        section(3, vector([b"\x00"])),
        section(4, vector([b"\x70\x00" + unsigned(table)])),
        section(9, vector([b"\x00\x41\x00\x0b" + vector([b"\x00"] * entries)] * count)),
        section(10, vector([body(b"")])),
    )


def globals_of(count):
    return module(section(6, vector([b"\x7f\x01\x41\x00\x0b"] * count)))


def branch_table(count):
    return one(b"\x02\x40\x41\x00\x0e" + vector([b"\x00"] * count) + b"\x00\x0b")


def turning_branch_table(count):
    """A table of labels that all differ from their neighbours, over 900 blocks."""
    labels = b"\x0e" + vector([unsigned(i % 900) for i in range(count)]) + b"\x00"
    return one(b"\x02\x40" * 900 + b"\x41\x00" + labels + b"\x0b" * 900)


def wide_operands(count):
    """So many statements over 15,000 operands of 32 bits."""
    return one(b"\x41\x00" * 15_000 + b"\x41\x00\x1a" * count + b"\x1a" * 15_000)


FAMILIES = {
    "nested blocks": (30_000, lambda n: nested(n, b"\x02\x40")),
    "nested loops": (30_000, lambda n: nested(n, b"\x03\x40")),
    "nested ifs": (30_000, lambda n: nested(n, b"\x41\x00\x04\x40")),
    "nested ifs with elses": (30_000, lambda n: nested(n, b"\x41\x00\x04\x40\x05")),
    "nested blocks past the limit": (500_000, lambda n: nested(n, b"\x02\x40")),
    "blocks that stay open": (30_000, lambda n: one(b"\x02\x40" * n)),
    "branches out of nested blocks": (30_000, lambda n: nested(n, b"\x02\x40", (b"\x41\x00\x0d" + unsigned(n - 1)) * n)),
    "branches out of 900 blocks": (100_000, lambda n: nested(900, b"\x02\x40", (b"\x41\x00\x0d" + unsigned(899)) * n)),
    "blocks beside each other": (400_000, lambda n: one(b"\x02\x40\x0b" * n)),
    "a br_table": (1_600_000, branch_table),
    "a br_table of labels that differ": (800_000, turning_branch_table),
    "br_tables": (100_000, lambda n: one(b"\x02\x40\x41\x00\x0e\x03\x00\x00\x00\x00\x0b" * n)),
    "no operations": (1_600_000, lambda n: one(b"\x01" * n)),
    "constants that are dropped": (500_000, lambda n: one(b"\x41\x00\x1a" * n)),
    "constants that stay": (500_000, lambda n: one(b"\x41\x00" * n + b"\x1a" * n)),
    "sums": (500_000, lambda n: one(b"\x41\x00" + b"\x41\x01\x6a" * n + b"\x1a")),
    "products of 64 bits": (400_000, lambda n: one(b"\x42\x00" + b"\x42\x01\x7c" * n + b"\x1a")),
    "what is never reached": (500_000, lambda n: one(b"\x00" + b"\x6a\x6a\x1a" * n)),
    "stores": (300_000, lambda n: one(b"\x41\x00\x41\x00\x36\x02\x00" * (n // 2), before=[section(5, vector([b"\x00\x01"]))])),
    "calls": (700_000, lambda n: one(b"\x10\x00" * n)),
    "statements over 15,000 operands": (40_000, wide_operands),
    "locals in use": (5_900, lambda n: one(b"".join(b"\x20" + unsigned(i) + b"\x1a" for i in range(n)), [(n, b"\x7f")])),
    "functions": (8_000, lambda n: alike(n, b"")),
    "functions past the limit": (160_000, lambda n: alike(n, b"")),
    "functions of a type with 2,000 parameters": (8_000, lambda n: alike(n, b"", kind_of(2000))),
    "functions of 59,000 locals": (7_500, lambda n: alike(n, b"", locals_of=[(59_000, b"\x7f")])),
    "runs of no locals": (700_000, lambda n: one(b"", [(0, b"\x7f")] * n)),
    "runs of one local": (5_900, lambda n: one(b"", [(1, b"\x7f")] * n)),
    "types": (1_000, lambda n: module(section(1, vector([NO_TYPE] * n)))),
    "types of 1,600 parameters": (1_000, lambda n: module(section(1, vector([kind_of(1600)] * n)))),
    "calls of entries by one type": (1_000, lambda n: calls_by_types(n, 10 * n)),
    "calls of entries by the last of many types": (1_000, lambda n: calls_by_other_types(n, n)),
    "exports": (100_000, exports),
    "exports with long names": (150, lambda n: exports(n, lambda i: b"e" * 9990 + b"%d" % i)),
    "exports of one name": (200_000, lambda n: exports(n, lambda i: b"e")),
    "imports": (7_900, imports),
    "imports of globals": (20_000, lambda n: imports(n, kind=b"\x03\x7f\x00")),
    "imports with long names": (150, lambda n: imports(n, lambda i: b"i" * 9990 + b"%d" % i)),
    "globals": (22_000, globals_of),
    "globals past the limit": (300_000, globals_of),
    "data segments": (270_000, segments),
    "data segments of 60,000 bytes": (25, lambda n: segments(n, b"\x01" * 60_000)),
    "empty data segments": (300_000, lambda n: segments(n, b"")),
    "element segments": (200_000, elements),
    "element segments of 60,000 entries": (25, lambda n: elements(n, 60_000, 65_536)),
    "a table of 1,048,576 entries": (100_000, lambda n: elements(1, n, n)),
    "custom sections": (500_000, lambda n: HEADER + b"\x00\x01\x00" * n),
    "a custom section": (1_600_000, lambda n: HEADER + section(0, sized(b"n") + b"\x00" * n)),
    "a name that isn't of UTF-8 at its end": (1_600_000, lambda n: imports(1, lambda i: b"n" * n + b"\xff")),
    "a truncated module": (160_000, lambda n: one(b"\x41\x00\x1a" * n)[:-1]),
    "a truncated section": (1_600_000, lambda n: HEADER + b"\x0a" + unsigned(n + 9) + b"\x01" * n),
}

# Names that collide in a hash map without a seed.
if colliding.finder():
    FAMILIES["exports whose names collide"] = (20_000, lambda n: exports(n, lambda i: colliding.names(n)[i].encode()))
    FAMILIES["imports whose names collide"] = (7_500, lambda n: imports(n, lambda i: colliding.names(n)[i].encode()))
