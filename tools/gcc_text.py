"""Turns what gcc for Alpha prints into instructions of profile 2, for tools/from_c.

`Translator` reads the assembler text of one function. Instructions of the profile are taken as they are, and what the
profile lacks is built from them. What can't be built is a fault, with its line in the C file.
"""
from __future__ import annotations

import re
from typing import Callable, Dict, List, NamedTuple, Optional

from alpha_text import BRANCHES, LOADS, MEMORY, OPERATES, REGISTERS, ZERO, Code, Insn

RESERVED = set(range(9, 16)) | {26, 29, 30}
SPARE = (28, 27, 25, 24, 23, 22, 8, 7, 6, 5)  # registers to build with, the first that the function doesn't use
STACK, GLOBALS = 30, 29
LEAST, MOST = -32768, 32767  # displacements
MASK = (1 << 64) - 1
Right = Dict[str, int]  # the right operand of an operate, as arguments of Insn: {"rb": K} or {"literal": N}

CALL = "a call of %s: make it `static inline`"
DIVISION = "a division: divide by a power of 2"
PRODUCT = "a multiplication, or a division by a constant: use shifts and sums"
SECOND = "two functions, %s and %s: all but one have to be `static inline`"
USES_STACK = "the stack: an array, the address of a variable, or more variables than registers"
USES_GLOBALS = "a global variable or a table of constants"
FLOATING = "floating point"
SMALL_LOAD = "a load of less than a quadword: load the quadword, and shift"
SMALL_STORE = "a store of less than a quadword"
REASONS = {
    "jmp": "a jump by a register", "mulq": PRODUCT, "mull": PRODUCT, "umulh": PRODUCT,
    "ldbu": SMALL_LOAD, "ldwu": SMALL_LOAD, "stl": SMALL_STORE, "stb": SMALL_STORE, "stw": SMALL_STORE,
    "stq_u": SMALL_STORE, "mskbl": SMALL_STORE, "mskwl": SMALL_STORE, "mskll": SMALL_STORE, "ldt": FLOATING,
    "lds": FLOATING, "stt": FLOATING, "sts": FLOATING,
    "call_pal": "a trap",
}
OPPOSITE = {"eq": "bne", "ne": "beq", "lt": "bge", "ge": "blt", "le": "bgt", "gt": "ble", "lbs": "blbc", "lbc": "blbs"}
LOW_BYTES = {1: ("and", 255), 2: ("extwl", 0), 4: ("extll", 0)}
FILE = re.compile(r'\.file (\d+) (?:"[^"]*" )?"([^"]*)"')
WIDTHS = {"b": 1, "w": 2, "l": 4, "q": 8}


class Unsupported(Exception):
    """Why an instruction can't be built."""


class Fault(NamedTuple):
    """What can't be translated: the file that gcc names, the line, and why."""

    file: str
    line: int
    reason: str


def register(text: str) -> int:
    """Returns the register that an operand is."""
    if text not in REGISTERS:
        raise Unsupported(FLOATING if text.startswith("$f") else "an operand %s" % text)
    return REGISTERS[text]


def right_of(text: str) -> Right:
    """Returns the right operand that a text is."""
    if text in REGISTERS:
        return {"rb": REGISTERS[text]}
    return {"literal": int(text, 0)}


def literal_of(right: Right, op: str) -> int:
    """Returns the literal that a right operand is."""
    if "literal" not in right:
        raise Unsupported("`%s` by a register" % op)
    return right["literal"]


class Translator:
    """Reads the text of one function. `code` is what was translated, `faults` what couldn't be."""

    def __init__(self, text: str) -> None:
        self.insns: List[Insn] = []
        self.labels: Dict[str, int] = {}
        self.faults: List[Fault] = []
        self.files: Dict[str, str] = {}  # by the numbers of `.file`
        self.built = 0  # instructions of gcc that the profile lacks
        self.file, self.line, self.fresh = "", 0, 0
        self.function, self.second, self.called = "", "", ""
        used = {REGISTERS[it] for it in re.findall(r"\$\d+", text) if it in REGISTERS}
        self.spare = next((it for it in SPARE if it not in used), None)
        for line in text.splitlines():
            self.read(line.strip())
        self.end()

    # ---- lines

    def read(self, line: str) -> None:
        """Reads a line: a directive, a label, an instruction."""
        match = re.match(r"\$(L\d+):$", line)
        if match:
            self.labels[match.group(1)] = len(self.insns)
        elif line.startswith("."):
            self.directive(line)
        elif line and not line.startswith("#") and not line.endswith(":"):
            try:
                self.insn(line)
            except Unsupported as reason:
                self.fault(str(reason))

    def directive(self, line: str) -> None:
        """Takes the name of a file, the line that what follows is of, and the function's name."""
        words, file = line.split(), FILE.match(line)
        if file:
            self.files[file.group(1)] = file.group(2)
        elif words[0] == ".loc":
            self.file, self.line = self.files.get(words[1], ""), int(words[2])
            if self.second:
                self.fault(SECOND % (self.function, self.second))
                self.second = ""
        elif words[0] == ".ent" and self.function:
            self.second = words[1]
        elif words[0] == ".ent":
            self.function = words[1]

    def fault(self, reason: str) -> None:
        """Adds a fault of the current line."""
        self.faults.append(Fault(self.file, self.line, reason))

    def end(self) -> None:
        """Ends the code: drops the labels that no branch names, and adds a `ret` to code that doesn't end by one or by `br`.

        Of each line the first fault is kept. If there is a call, the stack was used for it, so that is no fault.
        """
        if any(it.reason.startswith(("a call", "a division")) for it in self.faults):
            self.faults = [it for it in self.faults if it.reason != USES_STACK]
        self.faults = list({(it.file, it.line): it for it in reversed(self.faults)}.values())[::-1]
        targets = {it.label for it in self.insns}
        self.labels = {label: index for label, index in self.labels.items() if label in targets}
        if not self.insns or self.insns[-1].op not in ("ret", "br") or len(self.insns) in self.labels.values():
            self.add(Insn("ret"))
        self.code = Code(self.insns, self.labels)

    # ---- what is written

    def add(self, insn: Insn) -> None:
        """Appends an instruction of the current line."""
        written = insn.writes()
        if written == STACK or STACK in insn.reads():
            raise Unsupported(USES_STACK)
        if written == GLOBALS or GLOBALS in insn.reads():
            raise Unsupported(USES_GLOBALS)
        if written in RESERVED:
            raise Unsupported("it writes r%d, which is reserved" % written)
        insn.line, insn.file = self.line, self.file
        self.insns.append(insn)

    def operate(self, op: str, a: int, right: Right, c: int) -> None:
        self.add(Insn(op, ra=a, rc=c, **right))

    def shift(self, op: str, a: int, count: int, c: int) -> None:
        self.operate(op, a, {"literal": count}, c)

    def temporary(self) -> int:
        """Returns a register that the function doesn't use."""
        if self.spare is None:
            raise Unsupported("more variables than registers")
        return self.spare

    def constant(self, value: int, c: int) -> None:
        """Puts a constant into register c, by lda, ldah and sll."""
        word = (value & MASK) - (1 << 64) if value >> 63 & 1 else value & MASK
        low = ((word & 0xFFFF) ^ 0x8000) - 0x8000
        high = (word - low) >> 16
        base = ZERO
        if not LEAST <= high <= MOST:
            half = ((word & 0xFFFFFFFF) ^ 0x80000000) - 0x80000000
            self.constant((word - half) >> 32, c)
            self.shift("sll", c, 32, c)
            base, high = c, (half - low) >> 16
        if high > MOST:
            self.add(Insn("ldah", ra=c, rb=base, disp=MOST))
            base, high = c, high - MOST
        if high:
            self.add(Insn("ldah", ra=c, rb=base, disp=high))
            base = c
        if low or base == ZERO:
            self.add(Insn("lda", ra=c, rb=base, disp=low))

    def low_bytes(self, a: int, count: int, c: int) -> None:
        """Puts the lowest bytes of a into c."""
        if count in LOW_BYTES:
            op, literal = LOW_BYTES[count]
            self.operate(op, a, {"literal": literal}, c)
        else:
            self.shift("sll", a, 64 - 8 * count, c)
            self.shift("srl", c, 64 - 8 * count, c)

    def complement(self, right: Right, c: int) -> None:
        """Puts the complement into c, as -x - 1."""
        if "literal" in right:
            self.constant(~right["literal"], c)
        else:
            self.operate("subq", ZERO, right, c)
            self.operate("subq", c, {"literal": 1}, c)

    # ---- instructions

    def insn(self, line: str) -> None:
        """Translates an instruction."""
        op, _, rest = line.partition(" ") if " " in line else line.partition("\t")
        texts = [it.strip() for it in rest.split(",")] if rest.strip() else []
        if op in ("jsr", "bsr"):
            raise Unsupported(DIVISION if self.called.startswith(("__div", "__rem")) else CALL % self.called)
        if op in REASONS:
            raise Unsupported(REASONS[op])
        if op in MEMORY or op == "ldl":
            self.memory(op, rest)
        elif op in BRANCHES or op == "br":
            ra = register(texts[0]) if op in BRANCHES else ZERO
            self.add(Insn(op, ra=ra, label=texts[-1].lstrip("$")))
        elif op == "ret":
            self.add(Insn("ret"))
        elif op in ("mov", "clr", "ldi", "ldiq"):
            self.move(texts)
        elif op not in ("nop", "unop", "fnop"):
            self.of_three(op, texts)

    def memory(self, op: str, rest: str) -> None:
        """Translates a load, a store or a displacement. What prepares a call is skipped, since the call is a fault."""
        match = re.match(r"(\S+?),(.*)\((\S+)\)", rest)
        if "!gpdisp" in rest:
            return
        if match and "!literal" in rest and match.group(1) == "$27":
            self.called = match.group(2)
            return
        if match is None or not re.fullmatch(r"-?\d*", match.group(2)):
            raise Unsupported(USES_GLOBALS)
        ra, rb, disp = register(match.group(1)), register(match.group(3)), int(match.group(2) or "0")
        if op == "ldl":
            self.load_half(ra, rb, disp)
        elif op not in LOADS or ra != ZERO:  # (a load into r31 is a prefetch)
            self.add(Insn(op, ra=ra, rb=rb, disp=disp))

    def load_half(self, ra: int, rb: int, disp: int) -> None:
        """Loads half of a quadword with its sign, to which gcc narrows loads of quadwords.

        It loads the whole one. If rb isn't a multiple of 8, that load isn't allowed, so no proof is found.
        """
        if disp % 4:
            raise Unsupported(SMALL_LOAD)
        self.built += 1
        self.add(Insn("ldq", ra=ra, rb=rb, disp=disp - disp % 8))
        if disp % 8 == 0:
            self.shift("sll", ra, 32, ra)
        self.shift("sra", ra, 32, ra)

    def move(self, texts: List[str]) -> None:
        """Copies a register or a constant. `clr` has no first operand; `ldi` has it after the register."""
        texts = ["0"] + texts if len(texts) == 1 else texts
        source, target = (texts[1], texts[0]) if texts[1] not in REGISTERS else texts
        if source in REGISTERS:
            self.operate("bis", register(source), {"rb": ZERO}, register(target))
        else:
            self.constant(int(source, 0), register(target))

    def of_three(self, op: str, texts: List[str]) -> None:
        """Translates an operate instruction, of the profile or not. One of two operands has r31 for the left one."""
        if len(texts) == 2:
            texts = ["$31"] + texts
        if len(texts) != 3:
            raise Unsupported("the instruction `%s`" % op)
        a, right, c = register(texts[0]), right_of(texts[1]), register(texts[2])
        if op in OPERATES:
            self.of_profile(op, a, right, c)
        elif op in BUILT:
            self.built += 1
            BUILT[op](self, op, a, right, c)
        else:
            raise Unsupported("the instruction `%s`" % op)

    def of_profile(self, op: str, a: int, right: Right, c: int) -> None:
        """Adds an operate instruction of the profile. A literal outside its range becomes a displacement or a constant."""
        literal = right.get("literal", 0)
        if op in ("addq", "subq") and not 0 <= literal <= 255:
            self.add(Insn("lda", ra=c, rb=a, disp=literal if op == "addq" else -literal))
        elif not 0 <= literal <= 255:
            self.constant(literal, self.temporary())
            self.operate(op, a, {"rb": self.temporary()}, c)
        else:
            self.operate(op, a, right, c)

    # ---- instructions that the profile lacks

    def copy(self, op: str, a: int, right: Right, c: int) -> None:
        self.operate({"or": "bis", "andnot": "bic", "negq": "subq"}[op], a, right, c)

    def not_or(self, op: str, a: int, right: Right, c: int) -> None:
        """`not` and `ornot`."""
        if a == ZERO:
            return self.complement(right, c)
        self.complement(right, self.temporary())
        self.operate("bis", a, {"rb": self.temporary()}, c)

    def equivalence(self, op: str, a: int, right: Right, c: int) -> None:
        """`eqv`, the complement of `xor`."""
        self.operate("xor", a, right, c)
        self.complement({"rb": c}, c)

    def zap(self, op: str, a: int, right: Right, c: int) -> None:
        """`zapnot` keeps the bytes that a mask names, `zap` the others."""
        mask = literal_of(right, op) & 255 ^ (255 if op == "zap" else 0)
        if not mask:
            return self.constant(0, c)
        first, count = (mask & -mask).bit_length() - 1, bin(mask).count("1")
        if mask >> first != (1 << count) - 1:  # bytes apart
            self.constant(sum(255 << 8 * k for k in range(8) if mask >> k & 1), self.temporary())
            return self.operate("and", a, {"rb": self.temporary()}, c)
        if first:
            self.shift("srl", a, 8 * first, c)
        if first + count < 8:
            self.low_bytes(c if first else a, count, c)
        if first:
            self.shift("sll", c, 8 * first, c)

    def insert(self, op: str, a: int, right: Right, c: int) -> None:
        """`insbl` and its like put the lowest bytes where byte K is; `inswh` and its like have what falls out above."""
        count, by = WIDTHS[op[3]], 8 * (literal_of(right, op) & 7)
        if op[4] == "h" and not by:
            return self.constant(0, c)
        if count == 8:
            self.shift("srl" if op[4] == "h" else "sll", a, 64 - by if op[4] == "h" else by, c)
            return
        self.low_bytes(a, count, c)
        self.shift("srl" if op[4] == "h" else "sll", c, 64 - by if op[4] == "h" else by, c)

    def extract(self, op: str, a: int, right: Right, c: int) -> None:
        """`extql` shifts right by as many bytes as the address is above a multiple of 8; `extqh` and its like shift left."""
        is_high = op[4] == "h"
        if "literal" in right:
            by = 8 * (right["literal"] & 7)
            self.shift("sll" if is_high else "srl", a, -by % 64 if is_high else by, c)
        else:
            shift = self.temporary()
            self.operate("and", right["rb"], {"literal": 7}, shift)
            self.shift("sll", shift, 3, shift)
            if is_high:
                self.operate("subq", ZERO, {"rb": shift}, shift)
            self.operate("sll" if is_high else "srl", a, {"rb": shift}, c)
        if op[3] != "q":
            self.low_bytes(c, WIDTHS[op[3]], c)

    def scaled_difference(self, op: str, a: int, right: Right, c: int) -> None:
        """`s4subq` and `s8subq`."""
        self.shift("sll", a, 2 if op == "s4subq" else 3, self.temporary())
        self.operate("subq", self.temporary(), right, c)

    def of_32_bits(self, op: str, a: int, right: Right, c: int) -> None:
        """`addl` and its like: the lower half of the sum, with its sign."""
        whole = {"sextl": "addq", "negl": "subq"}.get(op, op[:-1] + "q")
        (self.of_profile if whole in OPERATES else self.scaled_difference)(whole, a, right, c)
        self.shift("sll", c, 32, c)
        self.shift("sra", c, 32, c)

    def move_if(self, op: str, a: int, right: Right, c: int) -> None:
        """`cmoveq` and its like, as a branch around a copy."""
        self.fresh += 1
        label = "CMOV%d" % self.fresh
        self.add(Insn(OPPOSITE[op[4:]], ra=a, label=label))
        if "literal" in right:
            self.constant(right["literal"], c)
        else:
            self.operate("bis", right["rb"], {"rb": ZERO}, c)
        self.labels[label] = len(self.insns)


Builder = Callable[[Translator, str, int, Right, int], Optional[None]]
BUILT: Dict[str, Builder] = {"eqv": Translator.equivalence, "xornot": Translator.equivalence}
for _names, _builder in (
        ("or andnot negq", Translator.copy),
        ("not ornot", Translator.not_or),
        ("zap zapnot", Translator.zap),
        ("insbl inswl insll insql inswh inslh insqh", Translator.insert),
        ("extql extqh extwh extlh", Translator.extract),
        ("s4subq s8subq", Translator.scaled_difference),
        ("addl subl s4addl s8addl s4subl s8subl sextl negl", Translator.of_32_bits),
        (" ".join("cmov" + _test for _test in OPPOSITE), Translator.move_if)):
    BUILT.update(dict.fromkeys(_names.split(), _builder))
