"""Hostile texts of asm.js: each family gives the bytes for a count."""
import colliding


def text(body, parameters="s,o,h", before="", after="return f;"):
    """A module with these declarations before its function `f`."""
    return f'function m({parameters}){{"use asm";{before}function f(x){{x=x|0;{body}return x|0;}}{after}}}'.encode()


def returned(expression):
    return f'function m(){{"use asm";function f(x){{x=x|0;return {expression};}}return f;}}'.encode()


def many(count, line):
    return "".join(line(i) for i in range(count))


def functions(count, line, after=None, before=""):
    last = after or f"return f{count - 1};"
    return f'function m(s,o,h){{"use asm";{before}{many(count, line)}{last}}}'.encode()


def deep(count, begin, inside, end):
    """So many parts one inside another, and in the innermost twenty statements for each."""
    return text(begin * 900 + inside * count + end * 900)


# How the height limit of 1,000 stops what is nested.
NESTED = {
    "parentheses": (800_000, lambda n: returned("(" * n + "x|0" + ")" * n + "|0")),
    "parentheses that stay open": (1_600_000, lambda n: returned("(" * n)),
    "prefix operators": (1_600_000, lambda n: returned("!" * n + "x|0")),
    "conditions": (160_000, lambda n: returned("x?0:" * n + "0")),
    "a chain of sums": (100_000, lambda n: text("x=" + "x+" * n + "x|0;")),
    "a chain of sums past the limit": (800_000, lambda n: text("x=" + "x+" * n + "x|0;")),
    "a chain of ors": (800_000, lambda n: text("x=" + "x|" * n + "0;")),
    "a chain of commas": (800_000, lambda n: text("x=x|0" + ",1" * n + ";")),
    "assignments": (800_000, lambda n: text("x=" * n + "x|0;")),
    "blocks": (800_000, lambda n: text("{" * n + "}" * n)),
    "blocks that stay open": (1_600_000, lambda n: text("{" * n)),
    "labels": (190_000, lambda n: text(many(n, lambda i: f"a{i}:") + ";")),
    "if else chains": (100_000, lambda n: text("if(x)x=0;else " * n + ";")),
    "ifs": (320_000, lambda n: text("if(x)" * n + ";")),
    "loops": (160_000, lambda n: text("while(1)" * n + ";")),
    "loops that end by a condition": (100_000, lambda n: text("do " * n + ";" + "while(0);" * n)),
}

# Many parts beside each other.
WIDE = {
    "statements": (200_000, lambda n: text("x=x|0;" * n)),
    "empty statements": (1_600_000, lambda n: text(";" * n)),
    "statements at a depth of 900": (200_000, lambda n: deep(n, "{", "x=x|0;", "}")),
    "sums at a depth of 900": (4_000, lambda n: text(("x=" + "~" * 900 + "x|0;") * (n // 3))),
    "parentheses of 800 levels": (1_000, lambda n: text(("x=" + "(" * 800 + "x|0" + ")" * 800 + ";") * n)),
    "functions": (5_000, lambda n: functions(n, lambda i: f"function f{i}(x){{x=x|0;return x|0;}}")),
    "functions that call each other": (
        5_000,
        lambda n: functions(n, lambda i: f"function f{i}(x){{x=x|0;x=f{i * 7919 % n}(x)|0;return x|0;}}"),
    ),
    "functions past the limit": (60_000, lambda n: functions(n, lambda i: f"function f{i}(){{}}")),
    "exports": (
        5_000,
        lambda n: functions(
            n, lambda i: f"function f{i}(x){{x=x|0;return x|0;}}", "return{" + ",".join(f"f{i}:f{i}" for i in range(n)) + "};"
        ),
    ),
    "exports of one function": (
        60_000,
        lambda n: text("", after="return{" + ",".join(f"k{i}:f" for i in range(n)) + "};"),
    ),
    "globals": (10_000, lambda n: text("", before=many(n, lambda i: f"var g{i}=0;"))),
    "globals past the limit": (100_000, lambda n: text("", before="var " + ",".join(f"g{i}=0" for i in range(n)) + ";")),
    "globals in use": (10_000, lambda n: text(many(n, lambda i: f"x=g{i}|0;"), before=many(n, lambda i: f"var g{i}=0;"))),
    "labels beside each other": (60_000, lambda n: text(many(n, lambda i: f"a{i}:{{break a{i};}}"))),
    "functions that nothing reaches": (
        4_900,
        lambda n: functions(n, lambda i: f"function f{i}(x){{x=x|0;x=f{i * 7919 % n}(x)|0;return x|0;}}", "function e(){}return e;"),
    ),
    "tables that one function calls": (
        3_000,
        lambda n: functions(
            1,
            lambda i: "function f0(x){x=x|0;return x|0;}" + "function e(x){x=x|0;" + many(n, lambda k: f"x=t{k}[x&0](x)|0;") + "return x|0;}",
            many(n, lambda i: f"var t{i}=[f0];") + "return e;",
        ),
    ),
    "locals": (5_000, lambda n: text("var " + ",".join(f"l{i}=0" for i in range(n)) + ";")),
    "locals in use": (
        5_000,
        lambda n: text("var " + ",".join(f"l{i}=0" for i in range(n)) + ";" + many(n, lambda i: f"x=l{i}|0;")),
    ),
    "functions with 2,000 parameters": (
        20,
        lambda n: functions(n, lambda i: f"function f{i}({','.join(f'p{k}' for k in range(2000))}){{{many(2000, lambda k: f'p{k}=p{k}|0;')}}}"),
    ),
    "calls with 2,000 arguments": (
        40,
        lambda n: text(("e(" + "x|0," * 1999 + "x|0);") * n, before="var e=o.e;"),
    ),
    "calls of a foreign member by 25,000 shapes": (
        2_500,
        lambda n: text(many(n, lambda i: f"e{i // 50}({','.join(['x|0'] * (i % 50))});"), before=many(500, lambda i: f"var e{i}=o.e{i};")),
    ),
    "foreign members": (
        10_000,
        lambda n: text("", before=many(n, lambda i: f"var e{i}=o.e{i};")),
    ),
    "tables": (
        3_000,
        lambda n: functions(1, lambda i: "function f0(x){x=x|0;return x|0;}", many(n, lambda i: f"var t{i}=[f0];") + "return f0;"),
    ),
    "a table, and calls of its entries": (
        6_553,
        lambda n: text("x=t[x&1](x)|0;" * n, after="var t=[f,f];return f;"),
    ),
    "tables of 65,536 entries": (
        1,
        lambda n: text("", after=many(n, lambda i: "var t" + str(i) + "=[" + "f," * 65535 + "f];") + "return f;"),
    ),
    "switches": (600, lambda n: text(("switch(x|0){" + many(1000, lambda i: f"case {i}:") + "}") * (n // 20))),
    "clauses of one switch past the limit": (100_000, lambda n: text("switch(x|0){" + many(n, lambda i: f"case {i}:") + "}")),
    "switches of far cases": (
        600,
        lambda n: text(("switch(x|0){" + many(1000, lambda i: f"case {i * 1000003 % 2000000000}:x={i};break;") + "}") * (n // 60)),
    ),
    "breaks to 900 labels": (
        10_000,
        lambda n: text(many(900, lambda i: f"a{i}:") + "{" + many(n, lambda i: f"if(x)break a{i % 900};") + "}"),
    ),
    "breaks to labels of 900 blocks": (
        10_000,
        lambda n: text(many(900, lambda i: f"a{i}:{{") + many(n, lambda i: f"if(x)break a{i % 900};") + "}" * 900),
    ),
    "breaks of a loop out of 900 blocks": (
        10_000,
        lambda n: text("while(x){" + many(900, lambda i: f"a{i}:{{") + "if(x)break;" * n + "}" * 901),
    ),
    "continues with labels of 300 loops": (
        10_000,
        lambda n: text(many(300, lambda i: f"a{i}:while(x){{") + many(n, lambda i: f"if(x)continue a{i % 300};") + "}" * 300),
    ),
}

# Names that collide in a hash map without a seed.
COLLIDING = {
    "globals whose names collide": (20_000, lambda n: text("", before="var " + ",".join(f"{it}=0" for it in colliding.names(n)) + ";")),
    "foreign members whose names collide": (
        20_000,
        lambda n: text("", before="var " + ",".join(f"g{i}=o.{it}|0" for i, it in enumerate(colliding.names(n))) + ";"),
    ),
    "labels whose names collide": (20_000, lambda n: text("".join(f"{it}:" for it in colliding.names(n)) + ";")),
    "locals whose names collide": (20_000, lambda n: text("var " + ",".join(f"{it}=0" for it in colliding.names(n)) + ";")),
    "functions whose names collide": (
        20_000,
        lambda n: ('function m(){"use asm";' + "".join(f"function {it}(){{}}" for it in colliding.names(n)[: min(n, 79_000)]) + "function f(){}return f;}").encode(),
    ),
    "exports whose keys collide": (20_000, lambda n: text("", after="return{" + ",".join(f"{it}:f" for it in colliding.names(n)) + "};")),
}

# Long names, spaces and numbers.
LONG = {
    "a long name": (700_000, lambda n: f'function {"n" * n}(){{"use asm";function f(){{}}return f;}}'.encode()),
    "a long name in use": (8_000, lambda n: text(("n" * n + "=x|0;") * 180, before=f"var {'n' * n}=0;")),
    "long names": (150, lambda n: functions(n, lambda i: f"function f{i}(){{}}", f"return f0;", many(n, lambda i: f"var {'n' * 9000}{i}=0;"))),
    "long foreign members": (
        15,
        lambda n: text("e0();", before=many(n, lambda i: f"var e{i}=o.{'n' * 99_000}{i};")),
    ),
    "long foreign members, each by 150 shapes": (
        8,
        lambda n: text(
            many(n, lambda i: many(150, lambda k: f"e{i}({','.join(['x|0'] * k)});")),
            before=many(n, lambda i: f"var e{i}=o.{'n' * 99_000}{i};"),
        ),
    ),
    "calls of a long foreign member": (10_000, lambda n: text("e();" * n, before=f"var e=o.{'n' * (n * 99 // 100)};")),
    "a comment": (1_600_000, lambda n: b"/*" + b"*" * n + b"/" + text("")),
    "a comment that stays open": (1_600_000, lambda n: b"/*" + b"*" * n),
    "comments": (400_000, lambda n: b"/**/" * n + text("")),
    "line ends": (1_600_000, lambda n: b"\n" * n + text("")),
    "a long number": (1_600_000, lambda n: text("x=" + "9" * n + ";")),
    "a long fraction": (1_600_000, lambda n: text("", before="var d=0." + "0" * n + ";")),
    "a long quote": (1_600_000, lambda n: b'function m(){"' + b"u" * n),
    "a truncated text": (160_000, lambda n: text("x=x|0;" * n)[:-3]),
}

FAMILIES = {**NESTED, **WIDE, **(COLLIDING if colliding.finder() else {}), **LONG}
