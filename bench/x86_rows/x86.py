"""The x86-64 subset of crates/x86_words: each instruction as a tuple, its bytes, and its text for GNU as.

An instruction is the name of its form in x86_words (`X86Insn`) and its operands in that order; registers are numbers, 0
to 15. `FORMS` has what the operands are.
"""
from __future__ import annotations

import struct
from typing import Callable, Dict, List, Tuple, Union

Operand = Union[int, str]
Insn = Tuple[Operand, ...]

ALU = {"add": (0x03, 0), "or": (0x0B, 1), "and": (0x23, 4), "sub": (0x2B, 5), "xor": (0x33, 6), "cmp": (0x3B, 7)}
SHIFTS = {"shl": 4, "shr": 5, "sar": 7}
CONDITIONS = {"b": 2, "ae": 3, "e": 4, "ne": 5, "be": 6, "a": 7, "s": 8, "ns": 9, "l": 12, "ge": 13, "le": 14, "g": 15}
SCALES = {1: 0, 2: 1, 4: 2, 8: 3}
RCX, RSP = 1, 4

# The operands of each form: a register (to, from, base, index, left, right), an operator, a shift, a condition, a
# scale, a count, or a number of the width that its name says.
FORMS: Dict[str, Tuple[str, ...]] = {
    "Mov": ("to", "from"), "MovImm": ("to", "i32"), "MovZero": ("to", "u32"), "MovAbs": ("to", "u64"),
    "Load": ("to", "base", "disp"), "Store": ("base", "disp", "from"),
    "Alu": ("alu", "to", "from"), "AluImm": ("alu", "to", "i32"), "AluLoad": ("alu", "to", "base", "disp"),
    "Lea": ("to", "base", "disp"), "LeaScaled": ("to", "any_base", "index", "scale"),
    "ShiftImm": ("shift", "to", "count"), "ShiftCl": ("shift", "to"), "Not": ("to",),
    "Test": ("left", "right"), "TestImm": ("left", "i32"), "Set": ("cond", "to"),
    "MovByte": ("to", "from"), "MovTwo": ("to", "from"), "MovFour": ("to", "from"),
    "JumpIf": ("cond", "jump"), "Jump": ("jump",), "Ret": (), "Nop": (),
}

LOW = ("ax", "cx", "dx", "bx", "sp", "bp", "si", "di")
NAMES = {
    64: ["r" + name for name in LOW] + ["r%d" % n for n in range(8, 16)],
    32: ["e" + name for name in LOW] + ["r%dd" % n for n in range(8, 16)],
    16: list(LOW) + ["r%dw" % n for n in range(8, 16)],
    8: ["al", "cl", "dl", "bl", "spl", "bpl", "sil", "dil"] + ["r%db" % n for n in range(8, 16)],
}


def rex(w: int, reg: int, index: int, base: int) -> int:
    return 0x40 + 8 * w + 4 * (reg >> 3) + 2 * (index >> 3) + (base >> 3)


def at_reg(w: int, opcode: bytes, reg: int, rm: int) -> bytes:
    """Prefix, opcode, and ModR/M with a register as r/m."""
    return bytes([rex(w, reg, 0, rm)]) + opcode + bytes([0xC0 | (reg & 7) << 3 | rm & 7])


def at_memory(opcode: int, reg: int, base: int, disp: int) -> bytes:
    """Prefix, opcode, and ModR/M with the quadword at base + disp as r/m."""
    return bytes([rex(1, reg, 0, base), opcode, 0x80 | (reg & 7) << 3 | base & 7]) + i32(disp)


def i32(number: int) -> bytes:
    return struct.pack("<i", number)


def scaled(to: int, base: int, index: int, scale: int) -> bytes:
    sib = SCALES[scale] << 6 | (index & 7) << 3 | base & 7
    return bytes([rex(1, to, index, base), 0x8D, 0x44 | (to & 7) << 3, sib, 0])


def short(w: int, to: int, number: bytes) -> bytes:
    """The form of `mov` whose opcode has the register."""
    return bytes([rex(w, 0, 0, to), 0xB8 | to & 7]) + number


ENCODERS: Dict[str, Callable[..., bytes]] = {
    "Mov": lambda to, source: at_reg(1, b"\x89", source, to),
    "MovImm": lambda to, imm: at_reg(1, b"\xC7", 0, to) + i32(imm),
    "MovZero": lambda to, imm: short(0, to, struct.pack("<I", imm)),
    "MovAbs": lambda to, imm: short(1, to, struct.pack("<Q", imm)),
    "Load": lambda to, base, disp: at_memory(0x8B, to, base, disp),
    "Store": lambda base, disp, source: at_memory(0x89, source, base, disp),
    "Alu": lambda op, to, source: at_reg(1, bytes([ALU[op][0]]), to, source),
    "AluImm": lambda op, to, imm: at_reg(1, b"\x81", ALU[op][1], to) + i32(imm),
    "AluLoad": lambda op, to, base, disp: at_memory(ALU[op][0], to, base, disp),
    "Lea": lambda to, base, disp: at_memory(0x8D, to, base, disp),
    "LeaScaled": scaled,
    "ShiftImm": lambda op, to, count: at_reg(1, b"\xC1", SHIFTS[op], to) + bytes([count]),
    "ShiftCl": lambda op, to: at_reg(1, b"\xD3", SHIFTS[op], to),
    "Not": lambda to: at_reg(1, b"\xF7", 2, to),
    "Test": lambda left, right: at_reg(1, b"\x85", right, left),
    "TestImm": lambda left, imm: at_reg(1, b"\xF7", 0, left) + i32(imm),
    "Set": lambda cond, to: at_reg(0, bytes([0x0F, 0x90 | CONDITIONS[cond]]), 0, to),
    "MovByte": lambda to, source: at_reg(0, b"\x0F\xB6", to, source),
    "MovTwo": lambda to, source: at_reg(0, b"\x0F\xB7", to, source),
    "MovFour": lambda to, source: at_reg(0, b"\x89", source, to),
    "JumpIf": lambda cond, disp: bytes([0x0F, 0x80 | CONDITIONS[cond]]) + i32(disp),
    "Jump": lambda disp: b"\xE9" + i32(disp),
    "Ret": lambda: b"\xC3",
    "Nop": lambda: b"\x90",
}


def encode(insn: Insn) -> bytes:
    return ENCODERS[str(insn[0])](*insn[1:])


def at(base: int, disp: int) -> str:
    return "[%s%+d]" % (NAMES[64][base], disp)


def words(*numbers: int) -> str:
    return ", ".join(NAMES[64][n] for n in numbers)


TEXTS: Dict[str, Callable[..., str]] = {
    "Mov": lambda to, source: "mov " + words(to, source),
    "MovImm": lambda to, imm: "mov %s, %d" % (words(to), imm),
    "MovZero": lambda to, imm: "mov %s, %d" % (NAMES[32][to], imm),
    "MovAbs": lambda to, imm: "movabs %s, %d" % (words(to), imm),
    "Load": lambda to, base, disp: "mov %s, %s" % (words(to), at(base, disp)),
    "Store": lambda base, disp, source: "mov %s, %s" % (at(base, disp), words(source)),
    "Alu": lambda op, to, source: "%s %s" % (op, words(to, source)),
    "AluImm": lambda op, to, imm: "%s %s, %d" % (op, words(to), imm),
    "AluLoad": lambda op, to, base, disp: "%s %s, %s" % (op, words(to), at(base, disp)),
    "Lea": lambda to, base, disp: "lea %s, %s" % (words(to), at(base, disp)),
    "LeaScaled": lambda to, base, index, scale: "lea %s, [%s+%s*%d]" % (words(to), words(base), words(index), scale),
    "ShiftImm": lambda op, to, count: "%s %s, %d" % (op, words(to), count),
    "ShiftCl": lambda op, to: "%s %s, cl" % (op, words(to)),
    "Not": lambda to: "not " + words(to),
    "Test": lambda left, right: "test " + words(left, right),
    "TestImm": lambda left, imm: "test %s, %d" % (words(left), imm),
    "Set": lambda cond, to: "set%s %s" % (cond, NAMES[8][to]),
    "MovByte": lambda to, source: "movzx %s, %s" % (NAMES[32][to], NAMES[8][source]),
    "MovTwo": lambda to, source: "movzx %s, %s" % (NAMES[32][to], NAMES[16][source]),
    "MovFour": lambda to, source: "mov %s, %s" % (NAMES[32][to], NAMES[32][source]),
    "JumpIf": lambda cond, disp: "j%s .+%d" % (cond, disp + 6),
    "Jump": lambda disp: "jmp .+%d" % (disp + 5),
    "Ret": lambda: "ret",
    "Nop": lambda: "nop",
}


def text(insn: Insn) -> str:
    """The instruction in Intel's syntax, as GNU as reads it."""
    return TEXTS[str(insn[0])](*insn[1:])


def registers(insn: Insn, roles: Tuple[str, ...]) -> List[int]:
    """The operands of an instruction that have one of these roles."""
    return [int(value) for role, value in zip(FORMS[str(insn[0])], insn[1:]) if role in roles]
