"""Pairs of modules of WebAssembly for the linker: each family gives the bytes of both for a count."""
import colliding
from hostile_wasm import NO_TYPE, body, elements, kind_of, module
from wasm_module import body as little_body, section, signed, sized, unsigned, vector

MEMORY = sized(b"env") + sized(b"memory") + b"\x02\x00\x01"
UNARY = b"\x60\x01\x7f\x01\x7f"


def function_import(name, kind=0):
    return sized(b"env") + sized(name) + b"\x00" + unsigned(kind)


def exported(names, first=0):
    """Exports of the functions from this number on."""
    return section(7, vector([sized(name) + b"\x00" + unsigned(first + i) for i, name in enumerate(names)]))


def numbered(letter, count, first=0):
    return [letter + b"%d" % i for i in range(first, first + count)]


def of_bodies(bodies, letter, imports=(), kind=UNARY, before=(), after=()):
    """A module that exports each of its functions, over the memory that both import."""
    names = numbered(letter, len(bodies))
    return module(
        section(1, vector([kind])),
        section(2, vector([*(function_import(it) for it in imports), MEMORY])),
        section(3, vector([b"\x00"] * len(bodies))),
        *before,
        exported(names, len(imports)),
        *after,
        section(10, vector(bodies)),
    )


def pair(make):
    """The same module twice, but for the names of its exports."""
    return make(b"f"), make(b"g")


# ---- shapes that programs have


def functions(count):
    return pair(lambda letter: of_bodies([little_body(i) for i in range(count)], letter))


def longer_functions(count):
    """Functions of 50 statements, of which one is a call."""
    statements = b"\x20\x00\x20\x01\x6a\x21\x01" * 49
    whole = [body(statements + b"\x20\x01" + (b"\x10" + unsigned(i - 1) if i else b""), [(1, b"\x7f")]) for i in range(count)]
    return pair(lambda letter: of_bodies(whole, letter))


def large_bodies(count):
    """Four bodies of so many statements."""
    statement = b"\x20\x00\x20\x01\x6a\x41\x07\x71\x21\x01\x20\x00\x20\x01\x36\x02\x08"
    whole = [body(statement * count + b"\x20\x01", [(1, b"\x7f")])] * 4
    return pair(lambda letter: of_bodies(whole, letter))


def bound_imports(count):
    """Each module imports what the other exports, and calls it."""
    whole = [body(b"\x20\x00\x10" + unsigned(i) + b"\x41\x01\x6a") for i in range(count)]
    return of_bodies(whole, b"f", numbered(b"g", count)), of_bodies(whole, b"g", numbered(b"f", count))


def entry_calls(count):
    """Functions of four calls by an entry, in modules with a table of 1,000 entries each."""
    whole = [body(b"\x20\x00\x20\x00\x11\x00\x00\x1a" * 4 + b"\x20\x00")] * count
    table = section(4, vector([b"\x70\x00" + unsigned(1000)]))
    entries = section(9, vector([b"\x00\x41\x00\x0b" + vector([unsigned(i) for i in range(min(count, 1000))])]))
    return pair(lambda letter: of_bodies(whole, letter, before=[table], after=[entries]))


def data(count, length):
    """So many data segments of this length."""
    segments = section(11, vector([b"\x00\x41\x00\x0b" + sized(b"\x01" * length)] * count))
    return pair(lambda letter: of_bodies([body(b"")], letter, kind=NO_TYPE) + segments)


# ---- hostile ones


def chained(count, last):
    """Imports of each module that stand for the other's, one after another: the last of all is this function of the first module."""
    links = [*range(1, count), last]
    first = module(
        section(1, vector([NO_TYPE])),
        section(2, vector([function_import(it) for it in numbered(b"b", count, 1)])),
        section(3, vector([b"\x00"])),
        section(7, vector([sized(b"a%d" % i) + b"\x00" + unsigned(i) for i in range(count + 1)])),
        section(10, vector([body(b"")])),
    )
    second = module(
        section(1, vector([NO_TYPE])),
        section(2, vector([function_import(b"a%d" % it) for it in links])),
        exported(numbered(b"b", count, 1)),
    )
    return first, second


def named(names):
    """A module that exports these names, and one that imports them."""
    exports = section(7, vector([sized(it) + b"\x00\x00" for it in dict.fromkeys(names)]))
    first = module(section(1, vector([NO_TYPE])), section(3, vector([b"\x00"])), exports, section(10, vector([body(b"")])))
    second = module(section(1, vector([NO_TYPE])), section(2, vector([function_import(it) for it in names])))
    return first, second


def in_one_body(code, table=True):
    """Two modules of one function, with a table of one entry each."""
    tables = [section(4, vector([b"\x70\x00\x01"]))] if table else []
    return pair(lambda letter: of_bodies([body(code)], letter, kind=NO_TYPE, before=tables))


def of_elements(count, entries=1, table=1):
    """The second module has a table of one entry, so that each call keeps its own bounds."""
    return elements(count, entries, table), elements(1)


def segments(count, content=b"\x01"):
    whole = section(11, vector([b"\x00\x41\x00\x0b" + sized(content)] * count))
    one = section(2, vector([MEMORY])) + whole
    return module(one), module(one)


def wide_bodies(count):
    """Functions of 59,998 locals with a call by an entry, beside a module with a table."""
    whole = [body(b"\x41\x00\x11\x00\x00", [(59_998, b"\x7f")])] * count
    table = section(4, vector([b"\x70\x00\x01"]))
    return pair(lambda letter: of_bodies(whole, letter, kind=NO_TYPE, before=[table]))


FAMILIES = {
    "functions": (3_900, functions),
    "functions of 50 statements": (3_900, longer_functions),
    "large bodies": (23_000, large_bodies),
    "imports that are bound": (1_900, bound_imports),
    "calls by an entry in many functions": (3_900, entry_calls),
    "a chain of imports": (3_990, lambda n: chained(n, n)),
    "a ring of imports": (3_990, lambda n: chained(n, 0)),
    "a tail into a ring of imports": (3_990, lambda n: chained(n, n // 2)),
    "imports of one export": (7_900, lambda n: named([b"f"] * n)),
    "imports with long names": (150, lambda n: named([b"i" * 9990 + b"%d" % i for i in range(n)])),
    "imports of names that begin alike": (150, lambda n: named([b"%d" % i + b"i" * 9990 for i in range(n)])),
    "imports of globals": (10_000, lambda n: pair(lambda letter: module(section(2, vector([sized(letter) + sized(b"%d" % i) + b"\x03\x7f\x00" for i in range(n)]))))),
    "exports": (100_000, lambda n: pair(lambda letter: module(section(1, vector([NO_TYPE])), section(3, vector([b"\x00"])), exported_one(letter, n), section(10, vector([body(b"")]))))),
    "types": (490, lambda n: pair(lambda letter: of_types(letter, n))),
    "globals": (10_900, lambda n: pair(lambda letter: module(section(6, vector([b"\x7f\x01\x41\x00\x0b"] * n))))),
    "calls": (270_000, lambda n: in_one_body(b"\x10\x00" * n, False)),
    "calls by an entry": (160_000, lambda n: in_one_body(b"\x41\x00\x11\x00\x00" * n)),
    "a br_table": (1_600_000, lambda n: in_one_body(b"\x02\x40\x41\x00\x0e" + vector([b"\x00"] * n) + b"\x00\x0b")),
    "br_tables": (100_000, lambda n: in_one_body(b"\x02\x40\x41\x00\x0e\x03\x00\x00\x00\x00\x0b" * n)),
    "no operations": (1_600_000, lambda n: in_one_body(b"\x01" * n)),
    "blocks beside each other": (400_000, lambda n: in_one_body(b"\x02\x40\x0b" * n)),
    "constants of 64 bits": (130_000, lambda n: in_one_body((b"\x42" + signed(-(2**62)) + b"\x1a") * n)),
    "functions of 59,998 locals with a call by an entry": (3_900, wide_bodies),
    "element segments": (200_000, of_elements),
    "element segments of 60,000 entries": (25, lambda n: of_elements(n, 60_000, 65_536)),
    "data segments": (270_000, segments),
    "data segments of 60,000 bytes": (25, lambda n: segments(n, b"\x01" * 60_000)),
    "empty data segments": (300_000, lambda n: segments(n, b"")),
    "one function beside many": (7_900, lambda n: (functions(n)[0], functions(1)[1])),
}


def exported_one(letter, count):
    """So many names of one function."""
    return section(7, vector([sized(letter + b"%d" % i) + b"\x00\x00" for i in range(count)]))


def of_types(letter, count):
    """So many types of 1,600 parameters, and a function of the last."""
    kinds = vector([kind_of(1600)] * count)
    return module(section(1, kinds), section(3, vector([unsigned(count - 1)])), section(7, vector([sized(letter) + b"\x00\x00"])), section(10, vector([body(b"")])))


# Names that collide in a hash map without a seed.
if colliding.finder():
    FAMILIES["imports of names that collide"] = (7_900, lambda n: named([it.encode() for it in colliding.names(n)]))
