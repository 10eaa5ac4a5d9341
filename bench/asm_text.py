#!/usr/bin/env python3
"""python3 bench/asm_text.py COUNT: an asm.js module of COUNT functions, each of which calls the one before it and
stores a word."""
import sys


def text(count):
    lines = [
        'function gen(stdlib,foreign,heap){"use asm";var H=new stdlib.Int32Array(heap);',
        "function f0(x){x=x|0;return x|0;}",
    ]
    lines += [f"function f{i}(x){{x=x|0;x=(f{i - 1}(x)|0)+{i}|0;H[{i}]=x;return x|0;}}" for i in range(1, count)]
    lines.append(f"return f{count - 1};}}")
    return "".join(line + "\n" for line in lines)


if __name__ == "__main__":
    sys.stdout.write(text(int(sys.argv[1])))
