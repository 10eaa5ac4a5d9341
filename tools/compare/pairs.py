"""Random pairs of modules of WebAssembly that `bridge link` takes, each with a script that fits."""
import random

from scripts import Call, Script, import_name
from wasm_bytes import FUNCTION, GLOBAL, I32, MEMORY, Function, Import, const32, const64, local_get
from wasm_modules import WasmModule

GIVEN = ("$trap", "$high")  # functions of `env` that the host keeps
MOST_PAGES = 8


class Pair:
    """Two modules whose memories are the import `env` `memory`, of whose function imports some are named as the other's exports."""

    def __init__(self, seed):
        self.random = random.Random(f"pair {seed}")
        self.cases = [WasmModule(f"first {seed}"), WasmModule(f"second {seed}")]
        for case in self.cases:
            self._share_memory(case)
        self._part_exports()
        for case, other in (self.cases, self.cases[::-1]):
            self._bind(case, other)
        self.pages = max((case.limits[0] for case in self.cases if case.limits), default=None)
        self.most = min((case.limits[1] for case in self.cases if case.limits and case.limits[1] is not None), default=None)
        self.script = self._script()

    # ---- one memory

    def _share_memory(self, case):
        """The module's memory as an import under the name that both must use, with room for the other's minimum."""
        if case.limits is None:
            return
        least, most = case.limits
        case.limits = (least, None if most is None else max(most, MOST_PAGES))
        case.module.memory = None
        imports = [i for i in case.module.imports if i.kind != MEMORY]
        names = [n for i, n in zip(case.module.imports, case.import_names) if i.kind != MEMORY]
        # (memories have numbers of their own, so the place of this import is free)
        at = self.random.randint(0, len(imports))
        case.module.imports = imports[:at] + [Import("env", "memory", MEMORY, case.limits)] + imports[at:]
        case.import_names = names[:at] + [import_name("env", "memory")] + names[at:]

    # ---- names

    def _rename(self, case, old, new):
        case.exported = {new if name == old else name: f for name, f in case.exported.items()}
        case.module.exports = [(new if name == old else name, kind, f) for name, kind, f in case.module.exports]

    def _part_exports(self):
        """No name is exported by both, and none that the host would lose an import to by chance."""
        first, second = self.cases
        for name in [n for n in second.exported if n in first.exported]:
            self._rename(second, name, f"{name}~")
        for case, other in (self.cases, self.cases[::-1]):
            imported = {i.field for i in other.module.imports if i.module == "env" and i.kind == FUNCTION} - set(GIVEN)
            for name in [n for n in case.exported if n in imported]:
                self._rename(case, name, f"{name}^")

    def _bind(self, case, other):
        """Some imports get the name of an export of their type, which may be an import of the other module itself."""
        for k, item in enumerate(case.module.imports):
            if item.kind != FUNCTION or (item.module == "env" and item.field in GIVEN) or self.random.random() < 0.3:
                continue
            wanted = case.module.types[item.detail]
            fitting = [n for n, f in other.exported.items() if n not in GIVEN and self._fits(case, k, other, f)]
            if not fitting:
                fitting = self._more_exports(case, k, other, wanted)
            if fitting:
                name = self.random.choice(fitting)
                case.module.imports[k] = Import("env", name, FUNCTION, item.detail)
                case.import_names[k] = import_name("env", name)

    def _fits(self, case, k, other, f):
        """Whether a function of the other's is of the import's type, and the import wouldn't come back to itself, were it bound to that."""
        if other.module.types[self._type_of(other, f)] != case.module.types[case.module.imports[k].detail]:
            return False
        here, there = other, case
        while True:
            functions = [j for j, item in enumerate(here.module.imports) if item.kind == FUNCTION]
            if f >= len(functions):
                return True
            if here is case and functions[f] == k:
                return False
            name = self.bound(here, here.module.imports[functions[f]])
            if name is None:
                return True
            here, there, f = there, here, there.exported[name]

    def _more_exports(self, case, k, other, wanted):
        """A function of the other's of this type, under a name that neither module uses; where there is none, a new one."""
        imported = sum(i.kind == FUNCTION for i in other.module.imports)
        alike = [f for f in range(imported + len(other.module.functions)) if self._fits(case, k, other, f)]
        if not alike:
            alike = [imported + len(other.module.functions)]
            other.module.functions.append(Function(other.module.type(*wanted), [], self._answer(*wanted)))
        f = self.random.choice(alike)
        name = f"bound {len(other.exported)} {len(case.exported)}"
        other.exported[name] = f
        other.module.exports.append((name, FUNCTION, f))
        return [name]

    def _answer(self, params, results):
        """The first argument of the result's type, or a constant."""
        if not results:
            return []
        same = [k for k, t in enumerate(params) if t == results[0]]
        constant = const32 if results[0] == I32 else const64
        return [local_get(same[0]) if same else constant(self.random.randrange(1000))]

    def _type_of(self, case, f):
        imported = [i.detail for i in case.module.imports if i.kind == FUNCTION]
        return imported[f] if f < len(imported) else case.module.functions[f - len(imported)].type

    # ---- the script

    def bound(self, case, item):
        """The other's export that an import is bound to."""
        other = self.cases[1] if case is self.cases[0] else self.cases[0]
        free = item.kind == FUNCTION and item.module == "env" and item.field not in GIVEN
        return item.field if free and item.field in other.exported else None

    def _script(self):
        script = Script()
        for case in self.cases:
            for item, name in zip(case.module.imports, case.import_names):
                if item.kind == GLOBAL:
                    script.globals.setdefault(name, case.script.globals.get(name, 7))
            script.calls += case.script.calls
            script.replies += case.script.replies
            if case.memory_is_imported:
                script.heap += case.script.heap
        names = {name: (case, f) for case in self.cases for name, f in case.exported.items()}
        script.calls = [c for call in script.calls for c in self._again(call, names)]
        self.random.shuffle(script.calls)
        return script

    def _again(self, call, names):
        for name in (call.name, f"{call.name}~", f"{call.name}^", f"{call.name}~^"):
            if name in names:
                case, f = names[name]
                params, results = case.module.types[self._type_of(case, f)]
                if list(params) == list(call.params):
                    return [Call(name, call.args, tuple(params), tuple(results))]
        return []
