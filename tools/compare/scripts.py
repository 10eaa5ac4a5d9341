"""Scripts, and the names and words of one language in the calling form of the other (docs/USAGE.md)."""
import re
from dataclasses import dataclass, field, replace

from wasm_bytes import I64, signed_reading


def is_plain(name):
    return re.fullmatch(r"[A-Za-z_$][A-Za-z0-9_$]*", name) is not None and name != "__proto__"


def import_name(module, name):
    """How a session names an import of WebAssembly, and the member of the foreign object that stands for it."""
    if module == "env" and is_plain(name) and not name.startswith("$x"):
        return name
    return f"$x{module.encode().hex()}${name.encode().hex()}"


def export_name(name):
    """The key of an exported function in asm.js."""
    return name if is_plain(name) and not name.startswith("$") else f"$x{name.encode().hex()}"


def word_of_script(name):
    data = name.encode()
    return name if data and all(0x21 <= x <= 0x7E for x in data) and name[0] != "%" else f"%{data.hex()}"


@dataclass
class Call:
    name: str
    args: list
    params: tuple = ()  # types of WebAssembly, where the callee has some
    results: tuple = ()

    def split(self):
        """The calls of asm.js that stand for this one."""
        args = [w for t, n in zip(self.params, self.args) for w in ([n & 0xFFFFFFFF, n >> 32 & 0xFFFFFFFF] if t == I64 else [n])]
        high = [Call("$hi", [])] if self.results == (I64,) else []
        return [Call(export_name(self.name), args)] + high


@dataclass
class Reply:
    word: int
    writes: list  # (place, bytes)


@dataclass
class Script:
    globals: dict = field(default_factory=dict)  # values by the names that sessions use
    heap: list = field(default_factory=list)  # (place, bytes)
    calls: list = field(default_factory=list)
    replies: list = field(default_factory=list)  # a Reply, or None for a throw

    def split(self):
        """The script in the calling form of what is translated to asm.js."""
        return replace(self, calls=[Call("$init", [])] + [c for call in self.calls for c in call.split()])

    def text(self):
        lines = [f"global {name} {value}" for name, value in self.globals.items()]
        lines += [f"heap {place} {data.hex()}" for place, data in self.heap]
        lines += [" ".join(["call", word_of_script(c.name), *map(str, c.args)]) for c in self.calls]
        for reply in self.replies:
            writes = [] if reply is None else [f"{place}={data.hex()}" for place, data in reply.writes]
            lines.append("throw" if reply is None else " ".join(["reply", str(reply.word), *writes]))
        return "".join(line + "\n" for line in lines)

    def for_engine(self):
        """Globals, bytes and replies as the engine's host reads them; numbers are texts, since JSON's don't hold 64 bits."""
        return {
            "heap": [[place, data.hex()] for place, data in self.heap],
            "replies": [r and [str(signed_reading(r.word, 64)), [[place, data.hex()] for place, data in r.writes]] for r in self.replies],
        }
