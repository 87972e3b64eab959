"""Alpha code as Python objects, for tools/from_c: instructions, control flow, live registers."""
from __future__ import annotations

from dataclasses import dataclass
from typing import Dict, List, Optional, Set

ZERO = 31  # the register that reads as 0
BRANCHES = ("blbc", "beq", "blt", "ble", "blbs", "bne", "bge", "bgt")
OPERATES = ("addq", "subq", "and", "bis", "sll", "srl", "cmpeq", "cmplt", "cmple", "cmpult", "cmpule",
            "xor", "bic", "s4addq", "s8addq", "sra", "extbl", "extwl", "extll")
LOADS = ("ldq", "ldq_u")
MEMORY = ("lda", "ldah", "stq") + LOADS
NAMES = "v0 t0 t1 t2 t3 t4 t5 t6 t7 s0 s1 s2 s3 s4 s5 s6 a0 a1 a2 a3 a4 a5 t8 t9 t10 t11 ra t12 at gp sp zero".split()
REGISTERS: Dict[str, int] = {form % k: k for k in range(32) for form in ("$%d", "r%d")}  # by name
REGISTERS.update({name: k for k, name in enumerate(NAMES)})


@dataclass
class Insn:
    """An instruction. What its format hasn't keeps its default."""

    op: str
    ra: int = ZERO
    rb: int = ZERO
    rc: int = ZERO
    literal: Optional[int] = None  # of an operate, in the place of rb
    disp: int = 0
    label: str = ""  # that it branches to
    line: int = 0  # of the C file that it is from, counted from 1
    file: str = ""  # that C file

    def writes(self) -> Optional[int]:
        """Returns the register that it writes."""
        if self.op in OPERATES:
            return self.rc
        return self.ra if self.op in MEMORY and self.op != "stq" else None

    def reads(self) -> Set[int]:
        """Returns the registers that it reads, but r31; of `ret` r0, the result."""
        found: Set[int] = set()
        if self.op == "ret":
            found = {0}
        elif self.op in MEMORY:
            found = {self.rb, self.ra} if self.op == "stq" else {self.rb}
        elif self.op in OPERATES:
            found = {self.ra} if self.literal is not None else {self.ra, self.rb}
        elif self.op in BRANCHES:
            found = {self.ra}
        return found - {ZERO}

    def text(self) -> str:
        """Returns it as a line of a source."""
        if self.op in MEMORY:
            return "      %s r%d,%d(r%d)" % (self.op, self.ra, self.disp, self.rb)
        if self.op in OPERATES:
            right = "r%d" % self.rb if self.literal is None else "%d" % self.literal
            return "      %s r%d,%s,r%d" % (self.op, self.ra, right, self.rc)
        if self.op in BRANCHES:
            return "      %s r%d,%s" % (self.op, self.ra, self.label)
        return ("      %s %s" % (self.op, self.label)).rstrip()


class Code:
    """Instructions with labels, and the control flow among them."""

    def __init__(self, insns: List[Insn], labels: Dict[str, int]) -> None:
        self.insns, self.labels = insns, labels

    def replaced(self, new: Dict[int, List[Insn]]) -> Code:
        """Returns the code with these instructions in the place of those at these indices."""
        insns: List[Insn] = []
        places = []  # where each index goes
        for index, insn in enumerate(self.insns):
            places.append(len(insns))
            insns += new.get(index, [insn])
        places.append(len(insns))
        return Code(insns, {label: places[index] for label, index in self.labels.items()})

    def successors(self, index: int) -> List[int]:
        """Returns the indices that may come next."""
        insn = self.insns[index]
        if insn.op == "ret":
            return []
        if insn.op == "br":
            return [self.labels[insn.label]]
        return ([self.labels[insn.label]] if insn.op in BRANCHES else []) + [index + 1]

    def live(self) -> List[Set[int]]:
        """Returns the registers whose values may still be used, before each index."""
        found: List[Set[int]] = [set() for _ in range(len(self.insns) + 1)]
        changed = True
        while changed:
            changed = False
            for index in reversed(range(len(self.insns))):
                insn = self.insns[index]
                new = (self.live_after(found, index) - {insn.writes()}) | insn.reads()
                changed |= new != found[index]
                found[index] = {it for it in new if it is not None}
        return found

    def live_after(self, live: List[Set[int]], index: int) -> Set[int]:
        """Returns the registers that are live after an index."""
        return set().union(*(live[j] for j in self.successors(index)))


def labels_by_index(labels: Dict[str, int]) -> Dict[int, List[str]]:
    """Returns the labels of each index that has one."""
    found: Dict[int, List[str]] = {}
    for label, index in labels.items():
        found.setdefault(index, []).append(label)
    return found
