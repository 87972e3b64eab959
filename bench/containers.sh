#!/usr/bin/env bash
# Times `pcc ref` of code that returns at once, in containers of 262,144 entries or one less: a chain,
# each entry the next one's part; a balanced tree; and a chain over 104,000 entries of an operator at
# two words, which rise, are drawn at random, or have equal hashes under the toolchain's hasher, whose
# seed is fixed. Median of five; processor time and peak memory.
# PCC is the program that is measured; without it tools/build builds the proved one.
#
# usage: bench/containers.sh
set -eu
top=$(cd "$(dirname "${BASH_SOURCE[0]}")/.." && pwd)
. "$top/tools/usage.sh"
usage 0 "$@"
work=$(mktemp -d)
trap 'rm -rf "$work"' EXIT
python3 - "$work" <<'PY'
import random, struct, sys

def write(name, entries, root):
    fields = [0x41434350, 1, 1, 2, 0x201F0001, 0x6BFA8001, len(entries)]
    for entry in entries:
        fields += entry
    fields += [1, 0, root, 0]
    with open(sys.argv[1] + "/" + name, "wb") as out:
        out.write(struct.pack("<%dI" % len(fields), *fields))

def build(low, high):  # the Lits from low on, below high
    if high - low == 1:
        tree.append([2, low, 0])
    else:
        middle = (low + high) // 2
        build(low, middle)
        left = len(tree) - 1
        build(middle, high)
        tree.append([6, left, len(tree) - 1])

MASK = 2**64 - 1
MULTIPLIER = 0x9E3779B97F4A7C15

def folded(a, b):
    return (a * b & MASK) ^ (a * b >> 64)

def twin(word):  # the second word that gives operator 0 at this first one the same hash as any other
    state = folded(0x243F6A8885A308D3 ^ 3, MULTIPLIER ^ 16)
    state = folded(state, MULTIPLIER ^ 8)
    return folded(state ^ word, MULTIPLIER ^ 16)

def applied(pairs):  # the first applied to the others, one after the other, under binders
    entries = []
    for a, b in pairs:
        entries.append([3, 0, a & 0xFFFFFFFF, a >> 32, b & 0xFFFFFFFF, b >> 32])
        if len(entries) > 1:
            entries.append([6, head, len(entries) - 1])
        head = len(entries) - 1
    while len(entries) < 262144:
        entries.append([7, len(entries) - 1])
    return entries

write("chain", [[2, 1, 0]] + [[7, k] for k in range(262143)], 262143)
tree = []
build(0, 131072)
write("tree", tree, len(tree) - 1)
count = 104000
random.seed(1)
rising = [(k, k) for k in range(count)]
drawn = [(random.getrandbits(64), random.getrandbits(64)) for _ in range(count)]
equal = [(k, twin(k)) for k in range(count)]
for name, pairs in [("rising", rising), ("random", drawn), ("equal hashes", equal)]:
    entries = applied(pairs)
    write(name, entries, len(entries) - 1)
with open(sys.argv[1] + "/packets", "wb") as out:
    out.write(struct.pack("<I", 64) + bytes(64))
PY
. "$top/bench/program.sh"
"$PCC" ref filter "$work/chain" "$work/packets"
python3 - "$top/bench" "$PCC" "$work" <<'PY'
import statistics, sys
sys.path.insert(0, sys.argv[1])
from runs import run

binary, work = sys.argv[2:]
for name in ["chain", "tree", "rising", "random", "equal hashes"]:
    runs = [run([binary, "ref", "filter", work + "/" + name, work + "/packets"], work) for _ in range(5)]
    assert all(r.status == 0 for r in runs), runs
    print("%s: %s  %.2f s  %.0f MB" % (
        name, runs[0].line, statistics.median(r.seconds for r in runs), statistics.median(r.megabytes for r in runs)))
PY
