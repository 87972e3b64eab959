#!/usr/bin/env bash
# Times `pcc prove` on code at its limits, median of five: the line that is printed, processor time and
# peak memory. A line or a digest that isn't the one expected, also of `check` of what is written, ends
# the run with status 1. The lines and digests of `prove` are an independent implementation's. Then files
# that ask for very much: a goal that is shared stands under 2^12 contexts, each with many hypotheses.
# PCC is the program that is measured; without it tools/build builds the proved one.
#
# usage: bench/prove.sh
set -eu
top=$(cd "$(dirname "${BASH_SOURCE[0]}")/.." && pwd)
. "$top/tools/usage.sh"
usage 0 "$@"
work=$(mktemp -d)
trap 'rm -rf "$work"' EXIT
. "$top/bench/program.sh"
python3 - "$top/bench" "$PCC" "$work" <<'PY'
import hashlib, os, statistics, sys
sys.path.insert(0, sys.argv[1])
from runs import run
from terms import *

binary, work = sys.argv[2:]
source, target = work + "/in", work + "/out"
failed = False

def once(*words):
    found = run([binary, *words], work)
    return found.line or "status %d" % found.status, found.seconds, found.megabytes

def digest():
    if not os.path.exists(target):
        return None
    with open(target, "rb") as out:
        return hashlib.sha256(out.read()).hexdigest()

def row(name, code, wanted, wanted_digest=None):
    measured(name, "filter", container(Terms(), FILTER, code), "%d code words" % len(code), wanted, wanted_digest)

def measured(name, policy, bytes, size, wanted, wanted_digest=None):
    global failed
    with open(source, "wb") as out:
        out.write(bytes)
    if os.path.exists(target):
        os.remove(target)
    runs = [once("prove", policy, source, target) for _ in range(5)]
    line, found, note = runs[0][0], digest(), ""
    if line != wanted:
        note = "  EXPECTED " + wanted
    elif found != wanted_digest:
        note = "  ANOTHER DIGEST %s" % found
    elif found is not None:
        line_of_check, seconds, megabytes = once("check", policy, target)
        note = "" if line_of_check == "accepted" else "  OF CHECK %s" % line_of_check
        line += "; check: %s, %.2f s, %.0f MB" % (line_of_check, seconds, megabytes)
    failed = failed or note != ""
    print("%-52s %7.2f s %6.0f MB  %s  %s%s" % (name, statistics.median(r[1] for r in runs),
          statistics.median(r[2] for r in runs), size, line, note), flush=True)

NOP, LOAD, STORE, SAME = 0x47FF041F, 0xA4320000, 0xB4320000, 0x40000400
TEST_1, TEST_0 = 0x44203000, 0x44003000  # `and $1,1,$0`, `and $0,1,$0`
SKIPPED = [0x40403402, 0x40603403, 0x40803404, 0x40A03405, 0x40C03406, 0x40E03407, 0x41003408, 0x42603413,
           0x42803414, 0x42A03415, 0x42C03416, 0x42E03417]
SUMMED = [0x40430400, 0x40040400, 0x40050400, 0x40060400, 0x40070400, 0x40080400, 0x40130400, 0x40140400,
          0x40150400, 0x40160400, 0x40170400]

def ways(count):  # each register is raised by one or isn't, so the condition has 2^count ways
    return [word for skipped in SKIPPED[:count] for word in (0xE4200001, skipped)]

doubled = [0x40210401] * 60 + [TEST_1, RETURN]
row("a register doubled sixty times", doubled, "written 6284",
    "a62372dd5c6a91cb32637f602cb92823d5d14861caee49c5fa2bddb2d4bc8f83")
stores = [LOAD, TEST_1, RETURN]
row("1,003 stores one behind the other", [STORE] * 1003 + stores, "written 141624",
    "f23f3aa50f3ea8d31ffd2ace3c4a4487c02676014647cc5c9dacd13b69a220c0")
row("one more", [STORE] * 1004 + stores, "too big height 4100")
heavy = [0x205F0001] + [0x40403402] * 60 + [word for k in range(3, 15) for word in (0xE4000001 | k << 21, NOP)]
row("2^12 ways to the same sum of 2^60 leaves", heavy + [0x405F05A0, RETURN], "too big weight 1417309")
row("2^12 ways to different sums", ways(12) + SUMMED + [TEST_0, RETURN], "written 2710904",
    "29a0f4ae466dbca97258e2c03639c2f284ec1518ba6dc6bbdd3eae73559d4fb2")
row("2^11 ways to sums of 2^17 leaves and more", ways(11) + SUMMED[:10] + [SAME] * 17 + [TEST_0, RETURN],
    "too big entries 461283")

def word(t, register):
    return t.var(30 - register)

def joined(t, forms):
    while len(forms) > 1:
        forms = [t.con(AND, *forms[i:i + 2]) if i + 1 < len(forms) else forms[i] for i in range(0, len(forms), 2)]
    return forms[0]

def contexts(count, left, right, goal):
    """Two invariants: so many hypotheses, each `(ule left right)` of its number; and a goal under 2^12
    contexts, the last `(ule goal 2)`."""
    t = Terms()
    hyps = joined(t, [t.con(ULE, left(t, k), right(t)) for k in range(count)])
    form = goal(t)
    for k in range(12):
        form = t.con(AND, *[t.con(IMP, t.con(ULE, t.lit(k), word(t, r)), form) for r in (2, 3)])
    return container(t, TAG, [RETURN, NOP, RETURN], [(1, hyps), (2, form)])

def hostile(name, count, *parts):
    bytes = contexts(count, *parts)
    measured(name, "tag", bytes, "%d bytes" % len(bytes), "status 5")

hostile("2^12 contexts of 25,000 closed hypotheses", 25000, lambda t, k: t.lit(k + 5), lambda t: t.lit(3),
        lambda t: t.con(ULE, t.lit(1), t.lit(2)))
hostile("2^12 contexts of 25,000 hypotheses of a register", 25000, lambda t, k: t.lit(k + 5), lambda t: word(t, 1),
        lambda t: t.con(ULE, t.lit(1), t.lit(2)))
hostile("2^12 contexts of 1,000 bounds of sums of a register", 1000, lambda t, k: t.con(ADD, word(t, 1), t.lit(k)),
        lambda t: t.lit(5), lambda t: t.con(ULE, t.con(ADD, word(t, 1), t.lit(9)), t.lit(6)))
sys.exit(1 if failed else 0)
PY
