"""Generated modules of WebAssembly, as texts, on which `wasm2js.py` measures what translators write."""
import random

# Operators that functions of the generated code take, by the width of their words: `wasm2js` refuses products of 64 bits.
SUMS = {32: ("add", "sub", "and", "or", "xor", "mul"), 64: ("add", "sub", "and", "or", "xor")}
TURNS = ("shl", "shr_s", "shr_u", "rotl")
RELATIONS = ("eq", "ne", "lt_s", "lt_u", "gt_s", "ge_u")


def memory_of(pages, *items):
    return "\n".join([f"(module (memory {pages} {pages})", *items, ")"])


def held(data):
    return "".join(f"\\{byte:02x}" for byte in data)


def segment(at, data):
    return f'(data (i32.const {at}) "{held(data)}")'


# What reads the memory: binaryen leaves out data that nothing reads.
READING = '(func (export "f") (param $at i32) (result i32) (i32.load8_u (local.get $at)))'


def expression(rng, width, depth, names):
    """A word of so many bits from variables, constants and the memory, by at most so many operators in one another."""
    if depth == 0 or rng.random() < 0.15:
        leaf = rng.random()
        if leaf < 0.6:
            return f"(local.get ${rng.choice(names)})"
        return f"(i{width}.const {rng.choice((1, 4, 7, 255, 1000, -3, 1 << 20))})"
    kind = rng.random()
    if kind < 0.2:
        return f"(i{width}.load offset={rng.randrange(0, 64, 4)} (i32.and (local.get $at) (i32.const 65472)))"
    if kind < 0.35:
        return f"(i{width}.{rng.choice(TURNS)} {expression(rng, width, depth - 1, names)} (i{width}.const {rng.randrange(1, width)}))"
    left, right = (expression(rng, width, depth - 1, names) for _ in range(2))
    return f"(i{width}.{rng.choice(SUMS[width])} {left} {right})"


def function(rng, number, width):
    """A function with a loop, a choice and a store."""
    names = ["a", "b", "c"]
    test = f"(i{width}.{rng.choice(RELATIONS)} {expression(rng, width, 1, names)} {expression(rng, width, 1, names)})"
    call = f"(local.set $c (call $f{rng.randrange(number)} (local.get $at) (local.get $a)))" if number else ""
    return (
        f'(func $f{number} (export "f{number}") (param $at i32) (param $a i{width}) (result i{width}) (local $b i{width}) (local $c i{width})\n'
        f"  (local.set $b {expression(rng, width, 3, names)})\n  {call}\n"
        f"  (loop $top (local.set $c {expression(rng, width, 3, names)})\n"
        f"    (if {test} (then (local.set $b {expression(rng, width, 2, names)})) (else (local.set $a {expression(rng, width, 2, names)})))\n"
        f"    (i{width}.store offset=8 (i32.and (local.get $at) (i32.const 65472)) (local.get $c))\n"
        "    (local.set $at (i32.sub (local.get $at) (i32.const 1)))\n"
        "    (br_if $top (i32.gt_s (local.get $at) (i32.const 0))))\n"
        f"  {expression(rng, width, 2, names)})"
    )


def code(width, count=300):
    rng = random.Random(width)
    return memory_of(2, *(function(rng, number, width) for number in range(count)))


def copies(count=200):
    """Functions that copy and fill, with places from parameters and constants."""
    rng = random.Random(count)
    items = []
    for number in range(count):
        length = f"(i32.const {rng.randrange(1, 4096)})" if number % 2 else "(local.get $c)"
        items.append(
            f'(func (export "f{number}") (param $a i32) (param $b i32) (param $c i32)\n'
            f"  (memory.copy (local.get $a) (i32.add (local.get $b) (i32.const {rng.randrange(64)})) {length})\n"
            f"  (memory.fill (local.get $b) (i32.const {rng.randrange(256)}) {length}))"
        )
    return memory_of(2, *items)


def texts(size):
    return (b"the quick brown fox jumps over the lazy dog. " * size)[:size]


def tables(size):
    """Small numbers of 32 bits, as tables of addresses and lengths are."""
    rng = random.Random(size)
    return b"".join(rng.randrange(1 << rng.randrange(1, 20)).to_bytes(4, "little") for _ in range(size // 4))


# The bytes that segments hold, by name; each is as long as is asked.
DATA = {
    "text": texts,
    "tables": tables,
    "random bytes": lambda size: random.Random(size).randbytes(size),
    "zeros": bytes,
    "zeros but one byte in 4,096": lambda size: (bytes(4_095) + b"\1") * (size // 4_096),
}


def data(name, size=65_536):
    """One segment of so many bytes, behind an odd place."""
    return memory_of(2, READING, segment(1_027, DATA[name](size)))


def small_segments(count=1_000):
    """Segments of 8 to 60 bytes each."""
    rng = random.Random(count)
    return memory_of(2, READING, *(segment(64 * number + rng.randrange(4), rng.randbytes(rng.randrange(8, 60))) for number in range(count)))


def families():
    """Each module's name and text."""
    yield "code of 32 bits", code(32)
    yield "code of 64 bits", code(64)
    yield "copies and fills", copies()
    for name in DATA:
        yield f"data: {name}", data(name)
    yield "data: small segments", small_segments()
