#!/usr/bin/env bash
# Times `pcc check` on containers at its limits, accepted and refused, median of five (the worst files
# known once each), some of them in both versions: the line that is printed, processor time and peak
# memory. A line that isn't the one expected ends the run with status 1.
# PCC is the program that is measured; without it tools/build builds the proved one.
#
# usage: bench/check.sh
set -eu
top=$(cd "$(dirname "${BASH_SOURCE[0]}")/.." && pwd)
. "$top/tools/usage.sh"
usage 0 "$@"
work=$(mktemp -d)
trap 'rm -rf "$work"' EXIT
. "$top/bench/program.sh"
python3 - "$top/bench" "$PCC" "$work" <<'PY'
import hashlib, statistics, sys
sys.path.insert(0, sys.argv[1])
from runs import run
from terms import *

binary, work = sys.argv[2:]
failed = False

def both(name, policy, data, wanted, times=5):
    row(name, policy, data, wanted, times)
    row(".. in version 2", policy, in_version_2(data, DIGESTS[policy]), wanted, times)

def row(name, policy, data, wanted, times=5):
    global failed
    path = work + "/container"
    with open(path, "wb") as out:
        out.write(data)
    runs = [run([binary, "check", policy, path], work) for _ in range(times)]
    line = runs[0].line or "status %d" % runs[0].status
    note = "" if line == wanted else "  EXPECTED " + wanted
    failed = failed or line != wanted
    print("%-52s %7.2f s %6.0f MB  %9d bytes  %s%s" % (name, statistics.median(r.seconds for r in runs),
          statistics.median(r.megabytes for r in runs), len(data), line, note), flush=True)

t = Terms()
both("ret under tag", "tag", returning_container(t), "accepted")
least = weight(t, returning(t))
both("the proof padded to weight 1,048,576", "tag", returning_container(t, padded(t, 1048577 - least)), "accepted")
both("one more", "tag", returning_container(t, padded(t, 1048578 - least)), "refused 10 ProofWeight 1048577")
both("sixty doublings", "tag", returning_container(t, sixty_times(t)), "refused 10 ProofWeight 4294967295")

t = Terms()
chained = t.con(TT_I)
for _ in range(1364):
    chained = t.con(AND_L, t.con(TT), t.con(TT), t.con(AND_I, t.con(TT), t.con(TT), chained, t.con(TT_I)))
high = height(t, returning(t, chained))
both("1,364 steps, one on the other (height %d)" % high, "tag", returning_container(t, chained), "accepted")

for leaves, wanted in [(26170, "accepted")]:
    t = Terms()
    whole = conjunction(t, [reflexive(t, t.lit(k)) for k in range(leaves)])
    data = returning_container(t, instead(t, *whole))
    both("%d facts, conjoined (%d entries)" % (leaves, struct.unpack_from("<I", data, 20)[0]), "tag", data, wanted)

def difference(t, word):
    """That a word without its low byte is what is computed of it."""
    low = t.lit(255)
    return t.con(EQ, t.con(BIC, t.lit(word), low), t.lit(word & ~255)), t.node(CALC, 12, word, 255)

def itself(t, word):
    """That the exclusive or of a word and itself is 0, by its rule."""
    return t.con(EQ, t.con(XOR, t.lit(word), t.lit(word)), t.lit(0)), t.con(XOR_SELF, t.lit(word))

for what, one in [("results of bic", difference), ("instances of xor_self", itself)]:
    t = Terms()
    data = returning_container(t, instead(t, *conjunction(t, [one(t, k + (1 << 40)) for k in range(21820)])))
    name = "21820 %s, conjoined (%d entries)" % (what, struct.unpack_from("<I", data, 20)[0])
    row(name, "tag", data, "refused 11 NotProof")
    row(".. in version 2", "tag", in_version_2(data, DIGESTS["tag"]), "accepted")

PAIR, ZERO = [0xE4200001, 0x47FF041F], 0x47FF041F
double = [ZERO] * 2 + PAIR * 14 + [RETURN_1, RETURN]
t = Terms()
row("unfolded length 65,536, no proof", "filter", container(t, FILTER, double), "refused 9 NoProof")
both("unfolded length 65,536, another proof", "filter", container(t, FILTER, double, (), t.con(TT_I)), "refused 11 NotProof")
both("unfolded length 65,537", "filter", container(t, FILTER, [ZERO] + double), "refused 8 UnfoldLimit 65537")

straight = [0x40203401] * 1022 + [RETURN_1, RETURN]
both("1,024 instructions, another proof", "filter", container(t, FILTER, straight, (), t.con(TT_I)), "refused 11 NotProof")
taken = [0x482050C1] * 1022 + [RETURN_1, RETURN]
data = in_version_2(container(t, FILTER, taken, (), t.con(TT_I)), DIGESTS["filter"])
row("1,024 instructions, extbl of extbl, another proof", "filter", data, "refused 11 NotProof")

def balanced(t, leaf, low, high):
    if high - low == 1:
        return leaf(low)
    middle = (low + high) // 2
    return t.con(AND, balanced(t, leaf, low, middle), balanced(t, leaf, middle, high))

t = Terms()
many = [(4 * k, t.con(EQ, t.var(30 - k % 31), t.lit(k))) for k in range(256)]
both("256 invariants, another proof", "filter", container(t, FILTER, straight, many, t.con(TT_I)), "refused 11 NotProof")
wide = balanced(t, lambda k: t.con(EQ, t.lit(k), t.lit(k)), 0, 52400)
data = container(t, FILTER, [0xC3FFFFFF], [(0, wide)])
both("an invariant of %d entries" % struct.unpack_from("<I", data, 20)[0], "filter", data, "refused 9 NoProof")
open_wide = balanced(t, lambda k: t.con(EQ, t.var(14), t.lit(k)), 0, 52400)
data = container(t, FILTER, [0x40203401, 0x40203401, 0xC3FFFFFE], [(1, open_wide)], t.con(TT_I))
both(".. over r16, put into 3 ways, another proof", "filter", data, "refused 11 NotProof")

t = Terms()
text = b"(and (eq r1 0) " * 255 + b"tt" + b")" * 255 + b"\ntt\n"
with open(work + "/policy", "wb") as out:
    out.write(text)
data = in_version_2(returning_container(t), hashlib.sha256(text).digest())
row("a policy of 255 equations in a file, another proof", "@" + work + "/policy", data, "refused 11 NotProof")

def applied(t, low, high):
    return t.lit(low) if high - low == 1 else t.node(APP, applied(t, low, (low + high) // 2), applied(t, (low + high) // 2, high))

t = Terms()
both("a balanced tree of 262,143 entries", "filter", container(t, FILTER, [0xC3FFFFFF], [(0, applied(t, 0, 131072))]), "refused 6 InvNotForm 0")
quantified = t.con(TT)
for _ in range(60):
    quantified = t.con(IMP, t.con(ALL, t.lam(quantified)), t.con(ALLM, t.lam(quantified)))
both("quantifiers that double sixty times", "filter", container(t, FILTER, [0xC3FFFFFF], [(0, quantified)]), "refused 9 NoProof")
both("262,144 abstractions", "filter", container(t, FILTER, [0xC3FFFFFF], [(0, t.lam(t.var(0), 262143))]), "refused 5 Height 262144")

for parts, count in [(40, 14500), (3000, 14500)]:
    t = Terms()
    data = returning_container(t, under_equality(t, contexts(t, parts, count)))
    both("a word of %d parts under %d hypotheses" % (parts, count), "tag", data, "accepted", 1)
for parts, count in [(20, 14000), (3000, 12000)]:
    t = Terms()
    data = returning_container(t, under_equality(t, instances(t, parts, count)))
    wanted = "accepted" if parts < 100 else "status 5"
    both("%d instances of a predicate of %d parts" % (count, parts), "tag", data, wanted, 1)
sys.exit(1 if failed else 0)
PY
