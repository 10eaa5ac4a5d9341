#!/usr/bin/env python3
"""python3 bench/wasm_module.py COUNT > FILE: a WebAssembly module of COUNT functions.
Function I takes an i32, stores it, calls function I - 1 and adds I. All are exported."""
import sys


def unsigned(n):
    out = bytearray()
    while True:
        low, n = n & 0x7F, n >> 7
        out.append(low | (0x80 if n else 0))
        if not n:
            return bytes(out)


def signed(n):
    out = bytearray()
    while True:
        low, n = n & 0x7F, n >> 7
        done = (n == 0 and not low & 0x40) or (n == -1 and low & 0x40)
        out.append(low | (0 if done else 0x80))
        if done:
            return bytes(out)


def vector(items):
    return unsigned(len(items)) + b"".join(items)


def sized(content):
    return unsigned(len(content)) + content


def section(number, content):
    return bytes([number]) + sized(content)


def body(i):
    code = b"\x20\x00\x20\x00\x36\x02" + unsigned(4 * i % 65532)
    code += b"\x20\x00" + (b"\x10" + unsigned(i - 1) if i else b"") + b"\x41" + signed(i) + b"\x6a\x0b"
    return sized(vector([b"\x02\x7f", b"\x01\x7e"]) + code)


def module(count):
    names = [sized(b"f%d" % i) + b"\x00" + unsigned(i) for i in range(count)]
    return b"\x00asm\x01\x00\x00\x00" + b"".join([
        section(1, vector([b"\x60\x01\x7f\x01\x7f"])),
        section(3, vector([b"\x00"] * count)),
        section(5, vector([b"\x00\x01"])),
        section(7, vector(names)),
        section(10, vector([body(i) for i in range(count)])),
    ])


if __name__ == "__main__":
    sys.stdout.buffer.write(module(int(sys.argv[1])))
