#!/usr/bin/env bash
# Prints a table of conditions that double: of code that sets eight registers to 5 before an invariant over
# them, a chain or a balanced tree; and of straight code, and of branches that double the unfolded length,
# without invariants. Processor time without start-up, median of five, each against the row before where that
# takes 1 ms, and peak memory of `prove`.
#
# Each container has a proof of `tt`, which is another formula. So `check` prints `refused 11 NotProof`, and
# its time is that of reading, and of what is asked before the proof. `prove` of the same makes the condition
# besides, words put into the invariant, and ends at the first goal, which isn't easy: `not easy 0`.
#
# PCC is the program that is measured; without it tools/build builds the proved one.
# A line that isn't the one expected ends the run with status 1.
#
# usage: bench/conditions.sh
set -eu
top=$(cd "$(dirname "${BASH_SOURCE[0]}")/.." && pwd)
. "$top/tools/usage.sh"
usage 0 "$@"
work=$(mktemp -d)
trap 'rm -rf "$work"' EXIT
. "$top/bench/program.sh"
python3 - "$top/bench" "$PCC" "$work" <<'PY'
import sys
sys.path.insert(0, sys.argv[1])
from hostile import CHANGED, balanced, beq
from runs import start_up, timed
from terms import *

binary, work = sys.argv[2:]
path, failed = work + "/container", False
NOP, DOUBLED = 0x47FF041F, 0x40210401
LEAST = 1e-3  # seconds, against which less says nothing

def leaf(t, k):
    """That one of the registers and a number, added, are the number."""
    return t.con(EQ, t.con(ADD, t.var(30 - CHANGED[k % 8]), t.lit(k)), t.lit(k))

def linked(t, whole, numbers):
    for k in numbers:
        whole = t.con(AND, leaf(t, k), whole)
    return whole

def chains(t, count):
    """So many chains of 1,000 links, all over one of 3,000."""
    whole = shared = linked(t, leaf(t, 0), range(1, 3000))
    for k in range(3, 3 + count):
        whole = t.con(AND, linked(t, shared, range(1000 * k, 1000 * k + 1000)), whole)
    return whole

def annotated(t, formula):
    """Code that sets registers to 5, and then has this invariant."""
    code = [0x08 << 26 | register << 21 | 31 << 16 | 5 for register in CHANGED]
    return container(t, FILTER, code + [RETURN], [(len(code), formula)], t.con(TT_I))

def plain(t, code):
    return container(t, FILTER, code + [RETURN], (), t.con(TT_I))

FAMILIES = [
    ("{:,} chains of 1,000 links over one of 3,000", [8, 19, 40], lambda t, n: annotated(t, chains(t, n))),
    ("a balanced tree of {:,} formulas", [10900, 21800, 43600],
     lambda t, n: annotated(t, balanced(t, lambda k: leaf(t, k), 0, n))),
    ("{:,} instructions in a row", [256, 512, 1023], lambda t, n: plain(t, [DOUBLED] * (n - 1))),
    ("{:,} branches that double the unfolded length", [11, 12, 13], lambda t, n: plain(t, [beq(1, 1), NOP] * n)),
]

print("| what | entries | bytes | `check` | times | `prove` | times | memory |")
print("|---|---|---|---|---|---|---|---|")
start = start_up(binary, work)
for what, sizes, made in FAMILIES:
    before = None
    for size in sizes:
        data = made(Terms(), size)
        with open(path, "wb") as out:
            out.write(data)
        checked, _, note = timed([binary, "check", "filter", path], work, start, "refused 11 NotProof")
        proved, megabytes, other = timed([binary, "prove", "filter", path, work + "/out"], work, start, "not easy 0")
        failed = failed or note + other != ""
        cells = []
        for k, seconds in enumerate((checked, proved)):
            told = before and before[k] >= LEAST
            cells += ["%.1f ms" % (seconds * 1e3), "%.2f" % (seconds / before[k]) if told else ""]
        text = "| %s | {:,} | {:,} | %s | %.0f MB |%s" % (what.format(size), " | ".join(cells), megabytes, note + other)
        print(text.format(entries_of(data), len(data)), flush=True)
        before = checked, proved
sys.exit(1 if failed else 0)
PY
