"""The memory references of the VAX's instructions, as SIMH's simulator makes them: which operands each reads and
writes, and what it reads and writes beside them. Its checks whether memory may be accessed aren't references."""

import re

WIDTHS = {"b": 1, "w": 2, "l": 4, "q": 8}
REGISTERS = [f"R{n}" for n in range(12)] + ["AP", "FP", "SP", "PC"]
OPERAND = re.compile(r"(?P<deferred>@)?(?P<literal>#)?(?P<number>-?[0-9A-F]+)?"
                     r"(?P<less>-)?(?:\((?P<base>[A-Z0-9]+)\)(?P<more>\+)?)?(?:\[(?P<index>[A-Z0-9]+)\])?")
FRAME_BYTES = 20            # condition handler, mask and PSW, AP, FP and PC
FRAME_READS = (4, 8, 12, 16)
CALLED_BY_CALLS = 1 << 29   # in the frame's second longword
MASK = 0xFFF
ADDRESSES = 1 << 32


class NoRecording(Exception):
    """The program can't be recorded."""


class Unknown(Exception):
    """An instruction's references depend on what is in memory: so many bytes at an address."""


def simple():
    """The operands of the instructions that do nothing in memory beside them: r is read, w written, m both, a is an
    address and v the base of a bit field; j stands for a branch."""
    known = {"NOP": "", "HALT": "", "MOVQ": "rq wq", "CLRQ": "wq", "MOVZBW": "rb ww", "MOVZBL": "rb wl",
             "MOVZWL": "rw wl", "CVTBW": "rb ww", "CVTBL": "rb wl", "CVTWL": "rw wl", "CVTWB": "rw wb",
             "CVTLB": "rl wb", "CVTLW": "rl ww", "ASHL": "rb rl wl", "ASHQ": "rb rq wq",
             "ROTL": "rb rl wl", "EMUL": "rl rl rl wq", "EDIV": "rl rq wl wl",
             "ADWC": "rl ml", "SBWC": "rl ml", "INDEX": "rl rl rl rl rl wl", "MOVPSL": "wl", "BISPSW": "rw",
             "BICPSW": "rw", "JMP": "al", "SOBGTR": "ml j", "SOBGEQ": "ml j", "AOBLSS": "rl ml j", "AOBLEQ": "rl ml j",
             "BLBS": "rl j", "BLBC": "rl j"}
    for jump in "BRB BRW BEQL BNEQ BGTR BLEQ BGEQ BLSS BGTRU BLEQU BVC BVS BGEQU BLSSU BCC BCS".split():
        known[jump] = "j"
    for width in "BWL":
        small = width.lower()
        for name, operands in {"MOV": "r w", "MNEG": "r w", "MCOM": "r w", "CLR": "w", "TST": "r", "CMP": "r r",
                               "BIT": "r r", "INC": "m", "DEC": "m", "ACB": "r r m"}.items():
            known[name + width] = " ".join(one + small for one in operands.split())
        for name in "ADD SUB MUL DIV BIS BIC XOR".split():
            known[f"{name}{width}2"] = f"r{small} m{small}"
            known[f"{name}{width}3"] = f"r{small} r{small} w{small}"
    for width in "BWLQ":
        known["MOVA" + width] = f"a{width.lower()} wl"
    return {name: (operands.split(), None) for name, operands in known.items()}


def longwords(address, count):
    return [(address + 4 * n) % ADDRESSES for n in range(count)]


def pushes(step):
    """PUSHL, JSB and the like push one longword; CALLS, CALLG and PUSHR all that lies below the old pointer."""
    top = step.before["SP"]
    made = []
    if step.name in ("CALLS", "CALLG"):
        made.append(("R", 2, step.operands[1].address))     # the mask of the procedure
        if step.name == "CALLS":
            top -= 4
            made.append(("W", 4, top))
        top &= ~3
    count = (top - step.after["SP"]) // 4
    return made + [("W", 4, one) for one in reversed(longwords(step.after["SP"], count))]


def pops(step):
    """RSB, and POPR by its mask."""
    count = 1 if step.name == "RSB" else bin(step.operands[0].value() & 0x7FFF).count("1")
    return [("R", 4, one) for one in longwords(step.before["SP"], count)]


def returns(step):
    """RET reads the frame, the registers that were saved, and after CALLS the number of arguments."""
    frame = step.before["FP"]
    word = step.memory(frame + 4, 4)
    count = bin(word >> 16 & MASK).count("1")
    made = [("R", 4, frame + at) for at in FRAME_READS]
    made += [("R", 4, one) for one in longwords(frame + FRAME_BYTES, count)]
    if word & CALLED_BY_CALLS:
        made.append(("R", 4, frame + FRAME_BYTES + 4 * count + (word >> 30)))
    return made


def pieces(address, count, backward):
    """How a string is gone through: bytes up to a multiple of 4, longwords, and bytes."""
    first = min(address % 4 if backward else -address % 4, count)
    middle = (count - first) // 4
    done = 0
    for size in [1] * first + [4] * middle + [1] * (count - first - 4 * middle):
        yield -done - size if backward else done, size
        done += size


def moves(step):
    """MOVC3 and MOVC5 copy, from the end where the goal lies above the source, and MOVC5 fills what is left."""
    source, goal = step.operands[1].address, step.operands[-1].address
    end = step.after["R3"]
    copied = (step.after["R1"] - source) % ADDRESSES
    if step.name == "MOVC3":
        copied = (end - goal) % ADDRESSES
    backward = source < goal
    made = []
    if copied:
        far = copied if backward else 0
        for at, size in pieces(goal + far, copied, backward):
            made += [("R", size, source + far + at), ("W", size, goal + far + at)]
    filled = goal + copied
    return made + [("W", size, filled + at) for at, size in pieces(filled, (end - filled) % ADDRESSES, False)]


def cases(step):
    """CASEB, CASEW and CASEL read a word of the table behind them, unless the selector lies beyond it."""
    selector, base, limit = (one.value() for one in step.operands)
    number = (selector - base) % (1 << 8 * step.operands[0].width)
    return [("R", 2, step.next + 2 * number)] if number <= limit else []


def signed(number):
    return number - ADDRESSES if number >> 31 else number


def bits(step):
    """BBS and the like read the byte of the bit, and BBSS and the like write it again."""
    position, base = step.operands[:2]
    if base.address is None:
        return []
    at = base.address + (signed(position.value()) >> 3)
    return [("R" if len(step.name) == 3 else "M", 1, at)]


def fields(step):
    """EXTV and the like read the one or two aligned longwords of the field, and INSV writes them."""
    position, size, base = step.operands[1:4] if step.name == "INSV" else step.operands[:3]
    if base.address is None or not size.value():
        return []
    at = base.address + (signed(position.value()) >> 3)
    two = size.value() + (position.value() & 7 | (at & 3) << 3) > 32
    first, second = longwords(at & ~3, 2)
    if step.name == "INSV":
        return [("R", 4, first), *([("R", 4, second), ("W", 4, second)] if two else []), ("W", 4, first)]
    return [("R", 4, first), *([("R", 4, second)] if two else [])]


def others():
    """The instructions that read and write beside their operands, after the operands that they read."""
    known = {"RSB": ("", pops), "POPR": ("rw", pops), "PUSHL": ("rl", pushes), "JSB": ("al", pushes),
             "BSBB": ("j", pushes), "BSBW": ("j", pushes), "PUSHR": ("rw", pushes), "CALLS": ("rl ab", pushes),
             "CALLG": ("ab ab", pushes), "RET": ("", returns), "MOVC3": ("rw ab ab", moves),
             "MOVC5": ("rw ab rb rw ab", moves), "INSV": ("rl rl rb vb", fields)}
    for width in "BWLQ":
        known["PUSHA" + width] = f"a{width.lower()}", pushes
    for width in "BWL":
        known["CASE" + width] = " ".join([f"r{width.lower()}"] * 3), cases
    for name in "BBS BBC BBSS BBCS BBSC BBCC BBSSI BBCCI".split():
        known[name] = "rl vb j", bits
    for name in "FFS FFC EXTV EXTZV".split():
        known[name] = "rl rb vb wl", fields
    for name in ("CMPV", "CMPZV"):
        known[name] = "rl rb vb rl", fields
    return {name: (operands.split(), work) for name, (operands, work) in known.items()}


INSTRUCTIONS = {**simple(), **others()}


class Operand:
    """An operand: its address, or none if it has none; the address of a pointer to it that is read; and its value.
    Registers that count up or down are changed."""

    def __init__(self, text, kind, registers, memory):
        self.width = WIDTHS[kind[1]]
        self.address = self.pointer = None
        if text in REGISTERS:
            number = registers[text]
            self.value = lambda: number % (1 << 8 * self.width)
            return
        found = OPERAND.fullmatch(text)
        if not found or found["less"] and found["more"]:
            raise NoRecording(f"the operand {text} isn't known")
        if found["literal"] and not found["deferred"]:
            self.value = lambda: int(found["number"], 16) % (1 << 8 * self.width)
            return
        self.find(found, registers, memory)
        self.value = lambda: memory(self.address, self.width)

    def find(self, found, registers, memory):
        base, number = found["base"], found["number"]
        if base is None:
            address = int(number, 16)
        else:
            if found["less"]:
                registers[base] = (registers[base] - self.width) % ADDRESSES
            address = (registers[base] + int(number or "0", 16)) % ADDRESSES
            if found["more"]:
                registers[base] = (address + (4 if found["deferred"] else self.width)) % ADDRESSES
        if found["deferred"] and not found["literal"]:
            self.pointer, address = address, memory(address, 4)
        if found["index"]:
            address = (address + registers[found["index"]] * self.width) % ADDRESSES
        self.address = address

    def parts(self):
        """Its bytes, as references of at most four."""
        return [(min(self.width, 4), self.address + at) for at in range(0, self.width, 4)]


class Step:
    """One instruction: its text, the address behind it, the registers before and after it, and what memory has
    before it: memory(address, bytes), which raises Unknown where that has to be looked up."""

    def __init__(self, text, following, before, after, memory):
        self.name, _, rest = text.partition(" ")
        if self.name not in INSTRUCTIONS:
            raise NoRecording(f"the instruction {self.name} isn't known: INSTRUCTIONS in vax_instructions.py has those "
                              "that are")
        self.next, self.before, self.after, self.memory = following, before, after, memory
        kinds, self.work = INSTRUCTIONS[self.name]
        self.kinds = [kind for kind in kinds if kind != "j"]
        registers = dict(before)
        self.operands = [Operand(one, kind, registers, memory)
                         for kind, one in zip(self.kinds, rest.split(",") if rest else [])]

    def references(self):
        """The references: op, bytes and address of each."""
        reads, writes = [], []
        for kind, one in zip(self.kinds, self.operands):
            if one.pointer is not None:
                reads.append(("R", 4, one.pointer))
            if one.address is not None and kind[0] in "rwm":
                (reads if kind[0] == "r" else writes).extend(
                    (kind[0].upper(), size, at) for size, at in one.parts())
        return reads + (self.work(self) if self.work else []) + writes
