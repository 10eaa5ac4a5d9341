"""Families of texts of WebAssembly that are hard on a reader: each a count, and a function from it to a text.

Ten times the count makes a text of at most 16,777,216 bytes."""
import colliding

ONE_TYPE = "(type (func))"


def module(*fields):
    return ("(module\n" + "\n".join(fields) + ")\n").encode()


def body(code, before=""):
    """A module of one function with this code."""
    return module(ONE_TYPE, "(memory 1)", before, f"(func (type 0)\n{code})")


def repeated(code):
    return lambda n: body(code * n)


def numbered(line, before="", after="", head=ONE_TYPE):
    """A module with a field for each number."""
    return lambda n: module(head, before, *[line(i) for i in range(n)], after)


def nested(n):
    return body("block\n" * n + "end\n" * n)


def labels(n):
    return body("".join(f"block $l{i} br $l{i} end\n" for i in range(n)))


def nested_labels(n):
    return body("".join(f"block $l{i}\n" for i in range(n)) + "".join(f"br $l{i}\n" for i in range(n)) + "end\n" * n)


def one_label(n):
    return body("block $a br $a\n" * n + "end\n" * n)


def called_by_id(n):
    return module(ONE_TYPE, *[f"(func $f{i} (type 0)\ncall $f{(7 * i + 1) % n}\n)" for i in range(n)])


def types_ahead(n):
    return module(*[f"(func (type $t{i}))" for i in range(n)], *[f"(type $t{i} (func))" for i in range(n)])


def locals_with_ids(n):
    names = "".join(f"(local $l{i} i32)" for i in range(n))
    return module(ONE_TYPE, f"(func (type 0) {names}\n" + "".join(f"local.get $l{n - 1 - i} drop\n" for i in range(n)) + ")")


def functions_with_locals(n):
    return module(ONE_TYPE, *["(func (type 0) (local $a i32) (local $b i64)\nlocal.get $a drop)"] * n)


def colliding_functions(n):
    names = colliding.names(n)
    return module(ONE_TYPE, *[f"(func ${it} (type 0) call ${it})" for it in names])


def wide_uses(n):
    """Functions of a type of 2,000 parameters, which they don't write."""
    return module(f"(type (func (param{' i32' * 2000})))", *["(func (type 0))"] * n)


def written_heads(n):
    """Functions that write the 200 parameters of their type."""
    params = f"(param{' i32' * 200})"
    return module(f"(type (func {params}))", *[f"(func (type 0) {params})"] * n)


FAMILIES = {
    "no operations": (400_000, repeated("nop\n")),
    "constants": (90_000, repeated("i32.const 7\ndrop\n")),
    "constants of 64 bits": (45_000, repeated("i64.const -9223372036854775808 drop\n")),
    "loads": (39_000, repeated("i32.const 0\ni32.load offset=4 align=4\ndrop\n")),
    "one br_table": (800_000, lambda n: body("i32.const 0 br_table" + " 0" * n)),
    "tables of branches": (60_000, repeated("i32.const 0 br_table 0\n")),
    "blocks that are closed": (160_000, repeated("block end\n")),
    "blocks that stay open": (29_999, nested),
    "blocks past the limit": (160_000, nested),
    "blocks without an end": (160_000, lambda n: body("block\n" * n)),
    "labels and branches to them": (50_000, labels),
    "labels of open blocks": (29_999, nested_labels),
    "one label bound often": (29_999, one_label),
    "functions": (7_999, numbered(lambda i: "(func (type 0)\nnop\n)")),
    "functions by id": (7_999, called_by_id),
    "types used ahead": (999, types_ahead),
    "locals with ids": (5_990, locals_with_ids),
    "functions with named locals": (7_999, functions_with_locals),
    "lists of one local": (5_990, lambda n: module(ONE_TYPE, "(func (type 0) " + "(local i32)" * n + ")")),
    "uses of a wide type": (7_999, wide_uses),
    "heads that write their parameters": (1_900, written_heads),
    "globals": (21_999, numbered(lambda i: f"(global i32 (i32.const {i}))")),
    "globals by id": (21_999, numbered(lambda i: f"(global $g{i} (mut i64) (i64.const {i}))")),
    "exports": (50_000, numbered(lambda i: f'(export "e{i}" (func 0))', before="(func (type 0))")),
    "imports": (7_999, numbered(lambda i: f'(import "m" "f{i}" (func (type 0)))')),
    "elements of a table": (500_000, lambda n: module(ONE_TYPE, "(table 1000000 funcref)", "(func (type 0))", "(elem (i32.const 0) func" + " 0" * n + ")")),
    "data segments": (50_000, numbered(lambda i: '(data (i32.const 0) "abc")', before="(memory 1)")),
    "strings of a data segment": (400_000, lambda n: module("(memory 1000)", "(data (i32.const 0)" + ' "a"' * n + ")")),
    "a string of escapes": (500_000, lambda n: module("(memory 1000)", '(data (i32.const 0) "' + "\\61" * n + '")')),
    "a string as it stands": (1_600_000, lambda n: module("(memory 1000)", '(data (i32.const 0) "' + "a" * n + '")')),
    "nested comments": (400_000, lambda n: b"(;" * n + b";)" * n + b"(module)"),
    "comments": (300_000, lambda n: b"(;;)\n" * n + b"(module)"),
    "lines of comments": (500_000, lambda n: b";;\n" * n + b"(module)"),
    "blanks": (1_600_000, lambda n: b" " * n + b"(module)"),
    "a number of many digits": (1_600_000, lambda n: body("i32.const " + "0" * n + " drop")),
    "a long id": (800_000, lambda n: module(ONE_TYPE, f"(func ${'f' * n} (type 0) call ${'f' * n})")),
    "ids that nothing binds": (100_000, repeated("call $nowhere\n")),
    "ids bound again": (7_999, numbered(lambda i: "(func $f (type 0))")),
    "parentheses": (1_600_000, lambda n: b"(" * n),
    "tokens behind a fault": (800_000, lambda n: b"(module x" + b" a" * n),
    "strings behind a fault": (500_000, lambda n: b"(module x" + b'"a"' * n),
    "a word outside behind a fault": (800_000, lambda n: b"(module x" + b" a" * n + b" f32)"),
    "a bad token behind a fault": (800_000, lambda n: b"(module x" + b" a" * n + b' "'),
    "an open comment": (800_000, lambda n: b"(module)" + b"(;" * n),
    **({"ids that collide": (7_999, colliding_functions)} if colliding.finder() else {}),
}
