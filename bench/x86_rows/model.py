"""What an instruction of the subset does, written by hand a second time: `step` on registers, flags and quadwords.

It follows the page of the manual, not crates/x86_machine, so that rows compares three things: this, the processor, and,
once test_tables runs the rows, the crate.
"""
from __future__ import annotations

from typing import Callable, Dict, List, NamedTuple, Optional, Tuple

from x86 import RCX, Insn

M = (1 << 64) - 1


class Flags(NamedTuple):
    carry: bool
    zero: bool
    sign: bool
    overflow: bool


class State(NamedTuple):
    """Registers, flags (None if undefined), quadwords by their addresses, and whether a jump was taken."""

    regs: List[int]
    flags: Optional[Flags]
    memory: Dict[int, int]
    jumped: bool = False


def signed(word: int) -> int:
    return word - (1 << 64) if word >> 63 else word


def flags_of(word: int, carry: bool = False, overflow: bool = False) -> Flags:
    return Flags(carry, word == 0, word >> 63 == 1, overflow)


def is_outside(number: int) -> bool:
    return not -(1 << 63) <= number < 1 << 63


def operated(op: str, a: int, b: int) -> Tuple[int, Flags]:
    """The word and the flags of an operator."""
    if op == "add":
        return (a + b) & M, flags_of((a + b) & M, a + b > M, is_outside(signed(a) + signed(b)))
    if op in ("sub", "cmp"):
        return (a - b) & M, flags_of((a - b) & M, a < b, is_outside(signed(a) - signed(b)))
    word = {"and": a & b, "or": a | b, "xor": a ^ b}[op]
    return word, flags_of(word)


def holds(cond: str, f: Flags) -> bool:
    tests: Dict[str, bool] = {"b": f.carry, "e": f.zero, "be": f.carry or f.zero, "s": f.sign,
                              "l": f.sign != f.overflow, "le": f.zero or f.sign != f.overflow}
    negated = {"ae": "b", "ne": "e", "a": "be", "ns": "s", "ge": "l", "g": "le"}
    return not tests[negated[cond]] if cond in negated else tests[cond]


def put(s: State, to: int, word: int) -> State:
    return s._replace(regs=s.regs[:to] + [word & M] + s.regs[to + 1:])


def operate(s: State, op: str, to: int, b: int) -> State:
    word, flags = operated(op, s.regs[to], b)
    return (s if op == "cmp" else put(s, to, word))._replace(flags=flags)


def shift(s: State, op: str, to: int, count: int) -> State:
    a = s.regs[to]
    word = {"shl": a << count, "shr": a >> count, "sar": signed(a) >> count}[op]
    return put(s, to, word)._replace(flags=None)


def defined(s: State) -> Flags:
    assert s.flags is not None
    return s.flags


def address(s: State, base: int, disp: int) -> int:
    return (s.regs[base] + disp) & M


def set_byte(s: State, cond: str, to: int) -> State:
    return put(s, to, s.regs[to] & ~0xFF | int(holds(cond, defined(s))))


STEPS: Dict[str, Callable[..., State]] = {
    "Mov": lambda s, to, source: put(s, to, s.regs[source]),
    "MovImm": lambda s, to, imm: put(s, to, imm),
    "MovZero": lambda s, to, imm: put(s, to, imm),
    "MovAbs": lambda s, to, imm: put(s, to, imm),
    "Load": lambda s, to, base, disp: put(s, to, s.memory[address(s, base, disp)]),
    "Store": lambda s, base, disp, source:
        s._replace(memory={**s.memory, address(s, base, disp): s.regs[source]}),
    "Alu": lambda s, op, to, source: operate(s, op, to, s.regs[source]),
    "AluImm": lambda s, op, to, imm: operate(s, op, to, imm & M),
    "AluLoad": lambda s, op, to, base, disp: operate(s, op, to, s.memory[address(s, base, disp)]),
    "Lea": lambda s, to, base, disp: put(s, to, address(s, base, disp)),
    "LeaScaled": lambda s, to, base, index, scale: put(s, to, s.regs[base] + scale * s.regs[index]),
    "ShiftImm": shift,
    "ShiftCl": lambda s, op, to: shift(s, op, to, s.regs[RCX] % 64),
    "Not": lambda s, to: put(s, to, s.regs[to] ^ M),
    "Test": lambda s, left, right: s._replace(flags=flags_of(s.regs[left] & s.regs[right])),
    "TestImm": lambda s, left, imm: s._replace(flags=flags_of(s.regs[left] & imm & M)),
    "Set": set_byte,
    "MovByte": lambda s, to, source: put(s, to, s.regs[source] & 0xFF),
    "MovTwo": lambda s, to, source: put(s, to, s.regs[source] & 0xFFFF),
    "MovFour": lambda s, to, source: put(s, to, s.regs[source] & 0xFFFFFFFF),
    "JumpIf": lambda s, cond, disp: s._replace(jumped=holds(cond, defined(s))),
    "Jump": lambda s, disp: s._replace(jumped=True),
    "Ret": lambda s: s,
    "Nop": lambda s: s,
}


def step(insn: Insn, s: State) -> State:
    return STEPS[str(insn[0])](s, *insn[1:])
