"""Rewrites code so that `pcc prove` proves more of it, for tools/from_c. What the code computes stays as it is.

`prove` knows sums better than copies, `cmpult` better than `cmpule` and tests for 0, and multiples of 8 by shifts
(docs/PROVING.md).
"""
from __future__ import annotations

from dataclasses import replace
from typing import Dict, FrozenSet, List, NamedTuple, Optional, Set

from alpha_text import BRANCHES, LOADS, MEMORY, OPERATES, ZERO, Code, Insn

ROUNDS = 100  # of `shortened`, at most
OTHER = {"beq": "bne", "bne": "beq"}  # the branch on the opposite


class Fact(NamedTuple):
    """That a register is another one, or a sum of it and a displacement."""

    register: int
    base: int
    disp: Optional[int]


Facts = FrozenSet[Fact]


def is_copy(insn: Insn) -> bool:
    return insn.op == "bis" and insn.literal is None and insn.rb == ZERO and insn.ra != ZERO


def facts_after(insn: Insn, facts: Facts) -> Facts:
    """Returns what is known after an instruction if `facts` are known before it."""
    written = insn.writes()
    if written is None:
        return facts
    left = frozenset(it for it in facts if written not in (it.register, it.base))
    if is_copy(insn) and insn.ra != written:
        return left | {Fact(written, insn.ra, None)}
    if insn.op == "lda" and insn.rb not in (written, ZERO):
        return left | {Fact(written, insn.rb, insn.disp)}
    return left


def facts_before(code: Code) -> List[Facts]:
    """Returns what is known before each index, on every way that leads there."""
    known: List[Optional[Facts]] = [None] * (len(code.insns) + 1)
    known[0] = frozenset()
    work = [0]
    while work:
        index = work.pop()
        here = known[index]
        after = facts_after(code.insns[index], here if here is not None else frozenset())
        for following in code.successors(index):
            before = known[following]
            new = after if before is None else before & after
            if new != before:
                known[following] = new
                work.append(following)
    return [it if it is not None else frozenset() for it in known]


def renamed(insn: Insn, facts: Facts) -> Insn:
    """Returns the instruction with copies replaced by what they are copies of. A copy of a sum becomes that sum."""
    copies = {it.register: it.base for it in facts if it.disp is None}
    sums = {it.register: it for it in facts if it.disp is not None}
    if is_copy(insn) and insn.ra in sums:
        made = sums[insn.ra]
        return replace(insn, op="lda", ra=insn.rc, rb=made.base, disp=made.disp, rc=ZERO)
    ra, rb = copies.get(insn.ra, insn.ra), copies.get(insn.rb, insn.rb)
    if insn.op in OPERATES or insn.op == "stq":
        return replace(insn, ra=ra, rb=rb)
    if insn.op in MEMORY:
        return replace(insn, rb=rb)
    return replace(insn, ra=ra) if insn.op in BRANCHES else insn


def is_idle(code: Code, index: int, live: List[Set[int]]) -> bool:
    """Returns whether nothing uses what the instruction writes. A load is never idle."""
    insn = code.insns[index]
    written = insn.writes()
    if written is None or insn.op in LOADS:
        return False
    return written not in code.live_after(live, index) or is_copy(insn) and insn.ra == written


def joined(code: Code, live: List[Set[int]]) -> Optional[Code]:
    """Returns the code without one copy of a value that is made only to be copied, or none."""
    targets = set(code.labels.values())
    for index, insn in enumerate(code.insns):
        if index == 0 or index in targets or not is_copy(insn):
            continue
        before = code.insns[index - 1]
        if before.writes() == insn.ra and insn.ra not in code.live_after(live, index):
            new = replace(before, rc=insn.rc) if before.op in OPERATES else replace(before, ra=insn.rc)
            return code.replaced({index - 1: [new], index: []})
    return None


def shortened(code: Code) -> Code:
    """Returns the code without the copies and idle instructions that it doesn't need."""
    for _ in range(ROUNDS):
        known = facts_before(code)
        new = Code([renamed(it, known[index]) for index, it in enumerate(code.insns)], code.labels)
        live = new.live()
        idle = [index for index in range(len(new.insns)) if is_idle(new, index, live)]
        after = new.replaced({index: [] for index in idle}) if idle else joined(new, live) or new
        if after.insns == code.insns:
            break
        code = after
    return code


def branch_on(code: Code, index: int, live: List[Set[int]]) -> Optional[int]:
    """Returns the index of the `beq` or `bne` that alone uses what a comparison writes, or none."""
    written, targets = code.insns[index].rc, set(code.labels.values())
    for at in range(index + 1, len(code.insns)):
        insn = code.insns[at]
        if at in targets:
            return None
        if insn.op in OTHER and insn.ra == written:
            return at if written not in code.live_after(live, at) else None
        if written in insn.reads() or insn.writes() == written or insn.op in BRANCHES + ("br", "ret"):
            return None
    return None


def compared(code: Code) -> Code:
    """Returns the code with `cmpult` for `cmpule`, if the right side is a literal or only a branch uses the result."""
    live, new = code.live(), {}  # type: List[Set[int]], Dict[int, List[Insn]]
    for index, insn in enumerate(code.insns):
        if insn.op != "cmpule":
            continue
        at = branch_on(code, index, live)
        if insn.literal is not None:
            if insn.literal < 255:
                new[index] = [replace(insn, op="cmpult", literal=insn.literal + 1)]
        elif at is not None:
            new[index] = [replace(insn, op="cmpult", ra=insn.rb, rb=insn.ra)]
            new[at] = [replace(code.insns[at], op=OTHER[code.insns[at].op])]
    return code.replaced(new)


def bounded(code: Code, spare: Optional[int]) -> Code:
    """Returns the code with `cmpult rX,1` before a test whether rX is 0, if rX is the upper end of indices.

    That is a register that indices are compared with, and that never changes. Then `prove` knows that it is at least 1,
    and so that the index 0 is below it.
    """
    ends = {it.rb for it in code.insns if it.op == "cmpult" and it.literal is None} - {it.writes() for it in code.insns}
    new: Dict[int, List[Insn]] = {}
    for index, insn in enumerate(code.insns):
        if spare is not None and insn.op in OTHER and insn.ra in ends:
            test = replace(insn, op="cmpult", rc=spare, literal=1, label="")
            new[index] = [test, replace(insn, op=OTHER[insn.op], ra=spare)]
    return code.replaced(new)


def spelled(insn: Insn, spare: Optional[int]) -> List[Insn]:
    """Returns the instruction as others: `lda` for a copy or 0, shifts for a mask of multiples of 8, `sll` for `s4addq`."""
    if insn.op == "bis" and insn.literal is None and insn.rb == ZERO:
        return [replace(insn, op="lda", ra=insn.rc, rb=insn.ra, rc=ZERO)]
    if insn.op == "bic" and insn.literal == 7:
        right = replace(insn, op="srl", literal=3)
        return [right, replace(right, op="sll", ra=insn.rc)]
    temporary = spare if insn.literal is None and insn.rb == insn.rc else insn.rc
    if insn.op == "s4addq" and temporary is not None:
        return [replace(insn, op="sll", rb=ZERO, literal=2, rc=temporary), replace(insn, op="addq", ra=temporary)]
    return [insn]


def easy(code: Code, spare: Optional[int]) -> Code:
    """Returns the code in shapes that `prove` knows. `spare` is a register that the code doesn't use, if there is one."""
    code = bounded(compared(shortened(code)), spare)
    return code.replaced({index: spelled(it, spare) for index, it in enumerate(code.insns)})
