"""Random bodies of functions of WebAssembly: each instruction is chosen by the types of the operands that stand there."""
from dataclasses import dataclass

from wasm_bytes import (EMPTY, I32, I64, IndirectCall, access, branch, branch_if, branch_table, call, const32, const64, global_get, global_set, local_get, local_set,
                        local_tee)

# Each opcode with the type of its operands and of its result.
UNARY = {op: (I32, I32) for op in (0x45, 0x67, 0x68, 0x69)} | {op: (I64, I64) for op in (0x79, 0x7A, 0x7B)}
UNARY |= {0x50: (I64, I32), 0xA7: (I64, I32), 0xAC: (I32, I64), 0xAD: (I32, I64)}
EXTENSIONS = {0xC0: (I32, I32), 0xC1: (I32, I32), 0xC2: (I64, I64), 0xC3: (I64, I64), 0xC4: (I64, I64)}
DIVISIONS = (0x6D, 0x6E, 0x6F, 0x70)
BINARY = {op: (I32, I32) for op in [*range(0x46, 0x50), *range(0x6A, 0x79)]} | {op: (I64, I32) for op in range(0x51, 0x5B)}
BINARY |= {op: (I64, I64) for op in [0x7C, 0x7D, *range(0x83, 0x8B)]}
# Each access with its word's type and the power of two of its bytes.
LOADS = {0x28: (I32, 2), 0x29: (I64, 3), 0x2C: (I32, 0), 0x2D: (I32, 0), 0x2E: (I32, 1), 0x2F: (I32, 1)}
LOADS |= {0x30: (I64, 0), 0x31: (I64, 0), 0x32: (I64, 1), 0x33: (I64, 1), 0x34: (I64, 2), 0x35: (I64, 2)}
STORES = {0x36: (I32, 2), 0x37: (I64, 3), 0x3A: (I32, 0), 0x3B: (I32, 1), 0x3C: (I64, 0), 0x3D: (I64, 1), 0x3E: (I64, 2)}
UNREACHABLE, NOP, ELSE, END, RETURN, DROP, SELECT, AND, OR, EQUAL = (bytes([b]) for b in (0x00, 0x01, 0x05, 0x0B, 0x0F, 0x1A, 0x1B, 0x71, 0x72, 0x46))
FILL, COPY, MEMORY_SIZE = b"\xfc\x0b\x00", b"\xfc\x0a\x00\x00", b"\x3f\x00"


@dataclass
class Label:
    type: int  # of the word that a branch carries, or EMPTY
    counter: int = None  # the local that counts a loop's turns


class Body:
    def __init__(self, module, callee):
        self.of, self.me = module, callee
        self.random, self.pick, self.chance = module.random, module.pick, module.chance
        self.locals = list(callee.params) + [self.pick([I32, I64]) for _ in range(self.random.randint(0, 4))]
        self.counters = set()
        self.labels = [Label(callee.results[0] if callee.results else EMPTY)]
        self.code = []
        self.operands = []  # their types, None for one of any type; where code is dead, there are more below
        self.dead = False
        self.turns, self.size, self.left = 1, 0, 3000
        self.forms = [(15, self.word), (10, self.unary), (19, self.binary), (4, self.keep), (8, self.load), (4, self.store), (2, self.block_operation),
                      (3, self.select), (1, self.nop), (9, self.call), (16, self.construct), (7, self.jump), (1, self.trap)]

    def fill(self):
        if self.of.fuel is not None:
            self.spend_fuel()
        in_a_row = self.chance(0.4)
        if in_a_row:
            self.operations()
        for _ in range(self.pick([0, 2, 5] if in_a_row else [1, 5, 12, 20, 30, 40])):
            self.instruction(3)
        if in_a_row or self.chance(0.85):
            self.show()
        self.finish(self.labels[0].type)
        self.me.cost = 3001 - self.left
        self.me.locals, self.me.code = self.locals[len(self.me.params):], self.code

    def spend_fuel(self):
        """Calls through the table may go round: each call takes some of what bounds them, and returns where it is used up."""
        fuel = self.of.fuel
        self.emit(global_get(fuel), const32(1), b"\x6b", global_set(fuel), global_get(fuel), const32(0), b"\x48\x04\x40")
        self.emit(*[self.of.constant(t) for t in self.me.results], RETURN, END)

    # ---- operands

    def emit(self, *parts):
        self.code += parts

    def of_type(self, kind):
        return [x for x, t in enumerate(self.locals) if t == kind and x not in self.counters]

    def globals_of_type(self, kind, changing):
        return [x for x, (t, changes) in enumerate(self.of.globals) if t == kind and (changes and x != self.of.fuel or not changing)]

    def value(self, kind, depth=1):
        """Code that puts one more word of this type on the stack."""
        k = self.random.random()
        variables, others = [x for x, t in enumerate(self.locals) if t == kind], self.globals_of_type(kind, False)
        if k < 0.45 and variables:
            return local_get(self.pick(variables))
        if k < 0.55 and others:
            return global_get(self.pick(others))
        if k < 0.75 and depth:
            op = self.pick([op for op, (_, t) in BINARY.items() if t == kind and op not in DIVISIONS])
            return self.value(BINARY[op][0], depth - 1) + self.value(BINARY[op][0], depth - 1) + bytes([op])
        if k < 0.85 and depth:
            op = self.pick([op for op, (_, t) in UNARY.items() if t == kind])
            return self.value(UNARY[op][0], depth - 1) + bytes([op])
        return self.of.constant(kind)

    def pop(self, *kinds):
        for _ in kinds:
            if self.operands:
                self.operands.pop()
            else:
                assert self.dead

    def serves(self, *kinds):
        """Whether the operands on top are of these types."""
        for k, kind in enumerate(reversed(kinds)):
            if k >= len(self.operands):
                return self.dead
            if self.operands[-1 - k] not in (kind, None):
                return False
        return True

    def need(self, *kinds):
        """Sees to operands of these types on top: those that stand there already, and new ones."""
        if self.dead and self.serves(*kinds) and self.chance(0.5):
            missing = len(kinds) - len(self.operands)
            self.operands[:0] = kinds[:max(missing, 0)]
            return
        there = max(n for n in range(len(kinds) + 1) if n <= len(self.operands) and all(a in (b, None) for a, b in zip(self.operands[len(self.operands) - n:], kinds)))
        for kind in kinds[there:]:
            self.emit(self.value(kind))
            self.operands.append(kind)

    def take(self):
        """Uses up the operand on top."""
        kind = self.operands.pop()
        k = self.random.random()
        variables, others = self.of_type(kind), self.globals_of_type(kind, True)
        if k < 0.35 and variables:
            self.emit(local_set(self.pick(variables)))
        elif k < 0.45 and others:
            self.emit(global_set(self.pick(others)))
        elif k < 0.8 and self.of.pages and kind is not None:
            self.locals.append(kind)
            kept = len(self.locals) - 1
            place = const32(self.random.randrange(60) * 8 + self.pick([0, 0, 1, 3]))
            self.emit(local_set(kept), place, local_get(kept), access(0x36 if kind == I32 else 0x37, 0, 0))
        else:
            self.emit(DROP)

    def finish(self, kind):
        """Leaves what a block's end asks for."""
        wanted = [] if kind == EMPTY else [kind]
        fits = len(self.operands) <= len(wanted) and self.serves(*wanted)
        if fits and (len(self.operands) == len(wanted) or self.chance(0.5)):
            return
        while self.operands and self.operands != wanted:
            self.take()
        if self.operands != wanted:
            self.emit(self.value(kind))
            self.operands = wanted

    # ---- instructions

    def instruction(self, depth):
        self.size += 1
        if len(self.operands) > 7:
            self.take()
            return
        form = self.random.choices([f for _, f in self.forms], [w for w, _ in self.forms])[0]
        if form != self.construct:
            form()
        elif depth and self.size < 400:
            self.construct(depth)

    def word(self):
        kind = self.pick([I32, I32, I64])
        size = self.of.pages is not None and self.chance(0.1)
        self.emit(MEMORY_SIZE if size else self.value(kind))
        self.operands.append(I32 if size else kind)

    def unary(self):
        table = EXTENSIONS if self.chance(0.4) else UNARY
        ops = [op for op, (t, _) in table.items() if self.serves(t)]
        if ops:
            op = self.pick(ops)
            self.pop(I32)
            self.emit(bytes([op]))
            self.operands.append(table[op][1])

    def binary(self):
        ops = [op for op, (t, _) in BINARY.items() if self.serves(t, t)]
        if not ops:
            return
        op = self.pick(ops)
        if op in DIVISIONS and not self.dead and self.chance(0.7):
            self.emit(const32(self.pick([1, 3, 7])), OR)
        self.pop(I32, I32)
        self.emit(bytes([op]))
        self.operands.append(BINARY[op][1])

    def keep(self):
        variables = [x for x, t in enumerate(self.locals) if x not in self.counters and self.serves(t)]
        if variables and self.chance(0.5):
            x = self.pick(variables)
            self.pop(I32)
            self.emit(local_tee(x))
            self.operands.append(self.locals[x])
        elif self.operands:
            self.take()

    def place(self):
        k = self.random.random()
        size = self.of.pages * 65536
        if not size and k < 0.9:
            return const32(0)
        if k < 0.6:
            return self.value(I32) + const32(self.pick([0xFF, 0xFFF, 0x3FF, 0x7FF8])) + AND
        if k < 0.985:
            near_end = max(0, size - self.pick([1, 2, 3, 4, 5, 7, 8, 8, 9, 12, 16, 20]))
            return const32(near_end if self.chance(0.1) else self.random.randint(0, 1300))
        return self.value(I32) + (const32(self.pick([0xFFFF, 0x1FFFF])) + AND if k < 0.995 else b"")

    def accessing(self, op, power):
        offset = self.pick([0, 0, 0, 1, 2, 3, 4, 5, 8, 100]) if self.chance(0.99) else self.pick([65530, 65535, 2**31, 2**32 - 1, 2**32 - 8])
        return access(op, self.random.randint(0, power), offset)

    def may_access(self):
        """Where the memory has no page, each access is a trap, so there are few."""
        return bool(self.of.pages) or self.of.pages is not None and self.chance(0.05)

    def load(self):
        if not self.may_access():
            return
        op = self.pick(list(LOADS))
        if self.dead and self.serves(I32) and self.chance(0.5):
            self.pop(I32)
        else:
            self.emit(self.place())
        self.emit(self.accessing(op, LOADS[op][1]))
        self.operands.append(LOADS[op][0])

    def store(self):
        if not self.may_access():
            return
        op = self.pick(list(STORES))
        kind, power = STORES[op]
        if self.dead and self.serves(I32, kind) and self.chance(0.5):
            self.pop(I32, kind)
        else:
            self.emit(self.place(), self.value(kind))
        self.emit(self.accessing(op, power))

    def block_operation(self):
        if not self.may_access():
            return
        size = self.of.pages * 65536
        places = [const32(p) for p in ([0, 1, 5, 8, 100, 1000, size - 9, size - 4, size] if size else [0, 1])]
        count = const32(self.pick([0, 0, 1, 3, 4, 5, 9]))
        if self.chance(0.5):
            self.emit(self.pick(places), self.value(I32), count, FILL)
        else:
            self.emit(self.pick(places), self.pick(places), count, COPY)

    def select(self):
        if self.dead and len(self.operands) < 3 and self.serves(I32) and self.chance(0.6):
            self.pop(I32)
            known = {t for t in self.operands if t is not None}
            if len(known) > 1:
                self.operands.append(I32)
                self.emit(const32(1))
                return
            self.operands = [known.pop() if known else None]
            self.emit(SELECT)
            return
        kind = self.pick([I32, I64])
        self.need(kind, kind, I32)
        self.pop(kind, kind, I32)
        self.emit(SELECT)
        self.operands.append(kind)

    def nop(self):
        self.emit(NOP)

    def trap(self):
        if not self.dead and self.chance(0.8):
            self.emit(self.value(I32), const32(self.pick([1, 255])), EQUAL, b"\x04\x40", UNREACHABLE, END)
        elif self.dead or self.chance(0.3):
            self.emit(UNREACHABLE)
            self.end_of_code()

    def end_of_code(self):
        self.operands, self.dead = [], True

    # ---- calls

    def call(self):
        callees = [f for f, c in enumerate(self.of.callees) if c.rank < self.me.rank and c.cost * self.turns < self.left]
        if self.of.entries is not None and self.turns < 10 and self.chance(0.4):
            self.call_through_table()
        elif callees:
            f = self.pick(callees)
            callee = self.of.callees[f]
            self.left -= callee.cost * self.turns
            self.arguments(callee.params)
            self.emit(call(f))
            self.operands += callee.results

    def call_through_table(self):
        """Mostly of an entry by its type; else of an empty one, of one outside, or by a type that is another's."""
        entries = self.of.entries
        full = [k for k, f in enumerate(entries) if f is not None]
        k = self.random.random()
        if full and k < 0.96:
            at = self.pick(full)
            kind = self.of.callees[entries[at]].type if k < 0.93 else self.random.randrange(len(self.of.module.types))
        elif k > 0.93:
            at = self.pick([len(entries), 2**32 - 1, *[e for e, f in enumerate(entries) if f is None]])
            kind = self.random.randrange(len(self.of.module.types))
        else:
            return
        params, results = self.of.module.types[kind]
        self.arguments(params)
        self.left -= 30 * self.turns
        computed = self.value(I32) + const32(0) + AND + const32(at) + OR
        self.emit(const32(at) if self.chance(0.8) else computed, IndirectCall(kind))
        self.operands += results

    def arguments(self, params):
        self.need(*params)
        self.pop(*params)

    # ---- jumps

    def labels_within(self, wanted):
        """How many labels lie inside each that is wanted; seldom the function's own."""
        depths = [d for d, label in enumerate(reversed(self.labels)) if wanted(label)]
        return [d for d in depths if d < len(self.labels) - 1 or self.chance(0.1)]

    def jump(self):
        blocks, loops = self.labels_within(lambda x: x.counter is None), self.labels_within(lambda x: x.counter is not None)
        k = self.random.random()
        if k < 0.35 and loops:
            d = self.pick(loops)
            self.emit(self.countdown(self.label(d).counter), branch_if(d))
        elif k < 0.75 and blocks:
            self.jump_at_will(self.pick(blocks))
        elif not self.dead and self.chance(0.95 if len(self.labels) == 1 else 0.4):
            return
        elif k < 0.82 and blocks:
            self.jump_always(self.pick(blocks))
        elif k < 0.93 and blocks:
            self.jump_by_table(blocks)
        elif k < 0.97 and loops and not self.dead:
            self.turn_by_table(blocks, self.pick(loops))
        elif self.dead or self.chance(0.3):
            self.need(*self.me.results)
            self.emit(RETURN)
            self.end_of_code()

    def label(self, depth):
        return self.labels[-1 - depth]

    def carried(self, depth):
        kind = self.label(depth).type
        return [] if kind == EMPTY else [kind]

    def countdown(self, counter):
        """Counts down, and leaves whether turns are left."""
        return local_get(counter) + const32(1) + b"\x6b" + local_tee(counter) + const32(0) + b"\x4a"

    def jump_at_will(self, depth):
        carried = self.carried(depth)
        self.need(*carried, I32)
        if not self.dead and self.chance(0.6):
            self.emit(const32(self.pick([1, 2])), AND)
        self.pop(*carried, I32)
        self.emit(branch_if(depth))
        self.operands += carried

    def jump_always(self, depth):
        self.need(*self.carried(depth))
        self.emit(branch(depth))
        self.end_of_code()

    def jump_by_table(self, blocks):
        otherwise = self.pick(blocks)
        alike = [d for d in blocks if self.label(d).type == self.label(otherwise).type]
        targets = [self.pick(alike) for _ in range(self.pick([0, 1, 2, 3, 5]))]
        self.need(*self.carried(otherwise))
        index = [self.value(I32) + const32(7) + AND, const32(self.pick([2**32 - 1, 2**31, 2**31 + 1, len(targets), 0])), self.value(I32)]
        self.emit(self.pick(index), branch_table(targets, otherwise))
        self.end_of_code()

    def turn_by_table(self, blocks, loop):
        """Where turns are left, to the loop's start or out of it."""
        empty = [loop] + [d for d in blocks if self.label(d).type == EMPTY]
        targets = [self.pick(empty) + 1 for _ in range(self.pick([1, 2, 4]))]
        index = self.value(I32) + const32(3) + AND
        self.emit(self.countdown(self.label(loop).counter), b"\x04\x40", index, branch_table(targets, self.pick(empty) + 1), END)

    # ---- constructs

    def construct(self, depth):
        kind = self.pick([EMPTY, EMPTY, I32, I64])
        form = self.pick([self.block, self.block, self.loop, self.condition, self.condition, self.condition, self.switch, self.switch])
        if form == self.switch:
            kind = EMPTY
        if form == self.condition:
            self.need(I32)
            self.pop(I32)
        outside = self.operands, self.dead, self.turns
        self.operands, self.dead = [], False
        form(depth, kind)
        self.operands, self.dead, self.turns = outside
        if kind != EMPTY:
            self.operands.append(kind)

    def inner(self, depth, kind):
        for _ in range(self.random.randint(0, 7)):
            self.instruction(depth - 1)
        self.finish(kind)

    def block(self, depth, kind):
        self.emit(b"\x02" + bytes([kind]))
        self.labels.append(Label(kind))
        self.inner(depth, kind)
        self.emit(END)
        self.labels.pop()

    def condition(self, depth, kind):
        self.emit(b"\x04" + bytes([kind]))
        self.labels.append(Label(kind))
        self.inner(depth, kind)
        if kind != EMPTY or self.chance(0.5):
            self.emit(ELSE)
            self.operands, self.dead = [], False
            self.inner(depth, kind)
        self.emit(END)
        self.labels.pop()

    def loop(self, depth, kind):
        turns = self.pick([1, 2, 3, 5])
        if self.turns * turns > 40:
            turns = 1
        self.turns *= turns + 2
        counter = len(self.locals)
        self.locals.append(I32)
        self.counters.add(counter)
        self.emit(const32(turns), local_set(counter), b"\x03" + bytes([kind]))
        self.labels.append(Label(EMPTY, counter))
        for _ in range(self.random.randint(0, 7)):
            self.instruction(depth - 1)
        if not self.dead and self.chance(0.7):
            self.emit(self.countdown(counter), branch_if(0))
        self.finish(kind)
        self.emit(END)
        self.labels.pop()

    def switch(self, depth, kind):
        """Blocks inside each other and a jump by a table, as compilers write them."""
        count = self.pick([1, 2, 3, 4, 6])
        self.emit(b"\x02\x40" * count)
        self.labels += [Label(EMPTY)] * count
        outer = [d for d in range(count, len(self.labels)) if self.label(d) == Label(EMPTY)]
        targets = [self.pick(outer) if outer and self.chance(0.05) else self.random.randrange(count) for _ in range(self.pick([1, 2, count, count + 2]))]
        index = [self.value(I32) + const32(self.pick([3, 7])) + AND] * 3 + [self.value(I32), const32(self.pick([0, 1, count, 2**32 - 1, 2**31, 2**31 + 1]))]
        self.emit(self.pick(index), branch_table(targets, self.random.randrange(count)))
        for k in range(count):
            self.labels.pop()
            self.emit(END)
            self.operands, self.dead = [], False
            self.case(depth, count - 1 - k)

    def case(self, depth, further):
        for _ in range(self.random.randint(0, 3)):
            self.instruction(depth - 1)
        variables = self.of_type(I32)
        if variables:
            x = self.pick(variables)
            self.emit(local_get(x), const32(self.random.randint(1, 99)), b"\x6a", local_set(x))
        self.finish(EMPTY)
        if further and not self.dead and self.chance(0.5):
            self.emit(branch(self.random.randrange(further)))
            self.end_of_code()

    # ---- single operations on words and places where they are likely to go wrong

    def operations(self):
        """The results are mixed into one word, which is seen in the end; an access or a quotient that traps may come last."""
        forms = [self.unary_of_edge, self.binary_of_edges, self.binary_of_edges]
        if self.of.pages:
            forms += [self.load_at_edge, self.store_at_edge, self.moved]
        mixed = len(self.locals)
        self.locals.append(I64)
        traps = [self.trapping_quotient] if self.chance(0.06) else [self.access_outside] if self.of.pages and self.chance(0.12) else []
        for form in [self.pick(forms) for _ in range(self.random.randint(5, 30))] + traps:
            kind, code = form()
            widened = code if kind == I64 else code + self.pick([b"\xac", b"\xad"])
            self.emit(local_get(mixed), const64(5), b"\x89", widened, b"\x85", local_set(mixed))

    def edge(self, kind):
        variables = [x for x, t in enumerate(self.locals) if t == kind]
        return local_get(self.pick(variables)) if variables and self.chance(0.5) else self.of.constant(kind)

    def unary_of_edge(self):
        op, (kind, result) = self.pick(list((UNARY | EXTENSIONS).items()))
        return result, self.edge(kind) + bytes([op])

    def binary_of_edges(self):
        op, (kind, result) = self.pick(list(BINARY.items()))
        if op not in DIVISIONS:
            return result, self.edge(kind) + self.edge(kind) + bytes([op])
        # No zero divides, and the least word isn't divided by -1.
        first = self.edge(kind) + const32(2**31 - 1) + AND if op in (0x6D, 0x6F) and self.chance(0.5) else const32(self.pick([2**31 + 1, -7, 7, 100]))
        return result, first + self.pick([const32(self.pick([1, 2, 3, -1, -2, 7, 2**31])), self.edge(kind) + const32(1) + OR]) + bytes([op])

    def trapping_quotient(self):
        op = self.pick(DIVISIONS)
        operands = self.pick([const32(2**31) + const32(-1), self.edge(I32) + const32(0)])
        return I32, operands + bytes([op])

    def last_place(self, power, before):
        """The place and the offset of an access that ends so many bytes before the memory's end."""
        offset = self.pick([0, 1, 2, 3, 4, 8, 100, 65000])
        return const32(self.of.pages * 65536 - 2**power - offset - before), offset

    def access_outside(self):
        op, (kind, power) = self.pick(list(LOADS.items()))
        place, offset = self.last_place(power, -self.pick([1, 1, 2, 3]))
        return kind, place + access(op, self.random.randint(0, power), offset)

    def load_at_edge(self):
        op, (kind, power) = self.pick(list(LOADS.items()))
        place, offset = self.last_place(power, self.pick([0, 0, 1, 2, 3, 4, 8]))
        return kind, place + access(op, self.random.randint(0, power), offset)

    def store_at_edge(self):
        """What is stored is seen by a load of eight bytes near the end."""
        op, (kind, power) = self.pick(list(STORES.items()))
        place, offset = self.last_place(power, self.pick([0, 0, 1, 2, 3, 4, 8]))
        code = place + self.edge(kind) + access(op, self.random.randint(0, power), offset)
        return I64, code + const32(self.of.pages * 65536 - 8 - self.pick([0, 0, 1, 4])) + access(0x29, 0, 0)

    def moved(self):
        """A copy between places that overlap, or a fill, and a load of eight bytes there."""
        to, length = self.random.randint(0, 200), self.pick([0, 1, 3, 4, 7, 8, 12, 13, 32])
        if self.chance(0.5):
            to, length = 4 * (to // 4), 4 * (length // 4)
        source = max(0, to + self.pick([-8, -4, -3, -1, 0, 1, 2, 4, 8]))
        code = const32(to) + (const32(source) + const32(length) + COPY if self.chance(0.6) else self.edge(I32) + const32(length) + FILL)
        return I64, code + const32(max(0, to + self.pick([0, 0, length - 8, length - 4]))) + access(0x29, 0, 0)

    # ---- what was computed is seen in the memory, or in the result

    def show(self):
        values = [(local_get(x), t) for x, t in enumerate(self.locals) if x not in self.counters]
        values += [(global_get(x), t) for x, (t, changes) in enumerate(self.of.globals) if changes and x != self.of.fuel]
        if self.of.pages and (not self.me.results or self.chance(0.7)):
            self.show_in_memory(values[-14:])
        elif self.me.results:
            self.show_in_result(values[-12:], self.me.results[0])

    def show_in_memory(self, values):
        place = 512 + 128 * self.me.rank
        for code, kind in values:
            self.emit(const32(place), code, access(0x36 if kind == I32 else 0x37, 0, 0))
            place += 4 if kind == I32 else 8

    def show_in_result(self, values, result):
        self.need(result)
        five, rotate, mix, convert = (const32(5), b"\x77", b"\x73", b"\xa7") if result == I32 else (const64(5), b"\x89", b"\x85", b"\xad")
        for code, kind in values:
            self.emit(five, rotate, code, b"" if kind == result else convert, mix)
