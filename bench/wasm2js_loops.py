"""Loops of WebAssembly that `wasm2js.py` times in node, each the export `f` of a number of turns."""


def turning(body, result, memory=1, variables=""):
    """A module whose function takes a number of turns, each of which is `body`, with the number of the turn in `$i`."""
    return f"""(module (memory {memory} {memory}) (func (export "f") (param $n i32) (result i32) (local $i i32) {variables}
  (block $out (loop $top
    (br_if $out (i32.ge_s (local.get $i) (local.get $n)))
    {body}
    (local.set $i (i32.add (local.get $i) (i32.const 1)))
    (br $top)))
  {result}))"""


def word(at):
    """The place of a word, by an index among 4,096."""
    return f"(i32.shl (i32.and {at} (i32.const 4095)) (i32.const 2))"


PRODUCTS = turning(
    f"""(local.set $s (i32.add (i32.mul (i32.load {word('(i32.add (local.get $i) (i32.const 7))')}) (i32.const 31)) (i32.xor (local.get $s) (local.get $i))))
    (i32.store {word('(local.get $i)')} (local.get $s))""",
    "(local.get $s)",
    variables="(local $s i32)",
)

WIDE = turning(
    """(local.set $s (i64.add (local.get $s) (i64.extend_i32_u (local.get $i))))
    (local.set $s (i64.xor (local.get $s) (i64.shl (local.get $s) (i64.const 13))))
    (local.set $s (i64.xor (local.get $s) (i64.shr_u (local.get $s) (i64.const 7))))
    (local.set $s (i64.xor (local.get $s) (i64.shl (local.get $s) (i64.const 17))))""",
    "(i32.wrap_i64 (local.get $s))",
    variables="(local $s i64)",
)


def exchange(offset):
    return f"""(local.set $t (i32.load offset={offset} (local.get $a)))
    (i32.store offset={offset} (local.get $a) (i32.load offset={offset} (local.get $b)))
    (i32.store offset={offset} (local.get $b) (i32.add (local.get $t) (local.get $i)))"""


# Two records of four words change places.
EXCHANGES = turning(
    f"""(local.set $a (i32.shl (i32.and (i32.mul (local.get $i) (i32.const 7)) (i32.const 1023)) (i32.const 4)))
    (local.set $b (i32.shl (i32.and (i32.mul (local.get $i) (i32.const 13)) (i32.const 1023)) (i32.const 4)))
    {exchange(0)} {exchange(4)} {exchange(8)} {exchange(12)}""",
    "(i32.load (i32.const 16))",
    variables="(local $a i32) (local $b i32) (local $t i32)",
)

# A checksum of 64 KiB, bit by bit.
CRC = turning(
    """(local.set $c (i32.xor (local.get $c) (i32.load8_u (i32.and (local.get $i) (i32.const 65535)))))
    (local.set $b (i32.const 8))
    (loop $bits
      (local.set $c (i32.xor (i32.shr_u (local.get $c) (i32.const 1))
        (i32.and (i32.const 0xedb88320) (i32.sub (i32.const 0) (i32.and (local.get $c) (i32.const 1))))))
      (br_if $bits (local.tee $b (i32.sub (local.get $b) (i32.const 1)))))""",
    "(local.get $c)",
    variables="(local $b i32) (local $c i32)",
)


def moving(instruction):
    """An instruction on a memory of 4 MiB, of which each turn changes a word."""
    return turning(
        f"(i32.store (i32.const 8) (i32.add (i32.load (i32.const 1048584)) (local.get $i)))\n    {instruction}",
        "(i32.add (i32.load (i32.const 1048584)) (i32.load (i32.const 2097152)))",
        memory=64,
    )


def copy(to, source, length=1_048_576):
    return moving(f"(memory.copy (i32.const {to}) (i32.const {source}) (i32.const {length}))")


def fill(at, length=1_048_576):
    return moving(f"(memory.fill (i32.const {at}) (local.get $i) (i32.const {length}))")


# Each loop's name, its number of turns and its module.
LOOPS = [
    ("loads, stores, products", 50_000_000, PRODUCTS),
    ("64-bit sums and shifts", 40_000_000, WIDE),
    ("exchanges", 10_000_000, EXCHANGES),
    ("CRC", 10_000_000, CRC),
    ("copies of 1 MiB, aligned alike", 400, copy(2_097_152, 0)),
    (".. from three bytes behind a word", 400, copy(2_097_155, 3)),
    (".. downwards", 400, copy(65_536, 0)),
    (".. not aligned alike", 100, copy(2_097_153, 0)),
    ("fills of 1 MiB", 400, fill(2_097_152)),
    (".. from an odd place", 400, fill(2_097_153)),
]
