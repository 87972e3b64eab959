#!/usr/bin/env bash
# Prints a table of proofs that share, each twice as long as the one before, up to some 256,000 entries:
# processor time of `pcc check` without start-up and peak memory, median of five, and the time against
# the row before.
#   chains     the sums of a word with others are themselves, conjoined one by one; the formula of all links
#              so far stands in the proof of the next
#   layers     conjunctions, each of two neighbours in the layer before, which is a hypothesis; so what would
#              double with each layer is written once
#   contexts   a word of 40 parts is itself under hypotheses that all differ
#   instances  a predicate of 20 parts holds of one word after another, by `all_e` and `eq_sub`
# Under `tag` the code `ret` has a condition that ends with `tt`; its proof goes by way of theirs.
#
# PCC is the program that is measured; without it tools/build builds the proved one.
# A container that isn't accepted ends the run with status 1.
#
# usage: bench/shared.sh
set -eu
top=$(cd "$(dirname "${BASH_SOURCE[0]}")/.." && pwd)
. "$top/tools/usage.sh"
usage 0 "$@"
work=$(mktemp -d)
trap 'rm -rf "$work"' EXIT
. "$top/bench/program.sh"
python3 - "$top/bench" "$PCC" "$work" <<'PY'
import sys
sys.path.insert(0, sys.argv[1])
from runs import start_up, timed
from terms import *

binary, work = sys.argv[2:]
path, failed = work + "/container", False

def chain(t, links, first):
    """So many links, each that the nearest word but one and another number, added, are themselves."""
    whole = reflexive(t, t.var(1))
    for k in range(links):
        whole = both_of(t, reflexive(t, t.con(ADD, t.var(1), t.lit(first + k))), whole)
    return whole

def chains(t, links, count):
    whole = chain(t, links, 0)
    for k in range(1, count):
        whole = both_of(t, chain(t, links, k << 20), whole)
    return whole

def taken_apart(t, formula, proof, levels):
    """The 2^levels parts of a balanced conjunction, each proved by the proof of all."""
    if levels == 0:
        return [(formula, proof)]
    one, other = t.nodes[t.nodes[formula][1]][2], t.nodes[formula][2]
    return (taken_apart(t, one, t.con(AND_L, one, other, proof), levels - 1)
            + taken_apart(t, other, t.con(AND_R, one, other, proof), levels - 1))

def layers(t, levels, count):
    """A proof of `tt` by way of so many layers of 2^levels conjunctions over as many facts, each layer
    under the one before as a hypothesis."""
    proved = [conjunction(t, [reflexive(t, t.lit(k)) for k in range(1 << levels)])]
    for _ in range(count):
        below = taken_apart(t, proved[-1][0], t.var(0), levels)
        neighbours = zip(below, below[1:] + below[:1])
        proved.append(conjunction(t, [both_of(t, one, other) for one, other in neighbours]))
    tt, truth = t.con(TT), t.con(TT_I)
    for formula, proof in reversed(proved):
        truth = t.con(IMP_E, formula, tt, t.con(IMP_I, formula, tt, t.lam(truth)), proof)
    return truth

FAMILIES = [
    ("chains of 1,000 links", [2, 4, 8, 16], lambda t, uses: under_equality(t, chains(t, 1000, uses))),
    ("layers of 128 that share their neighbours", [16, 32, 64, 128], lambda t, uses: layers(t, 7, uses)),
    ("a word of 40 parts under hypotheses that differ", [1800, 3600, 7200, 14400],
     lambda t, uses: under_equality(t, contexts(t, 40, uses))),
    ("instances of one predicate, by `all_e` and `eq_sub`", [2450, 4900, 9800, 19600],
     lambda t, uses: under_equality(t, instances(t, 20, uses))),
]

print("| family | uses | entries | bytes | processor time | memory | times |")
print("|---|---|---|---|---|---|---|")
start = start_up(binary, work)
for family, sizes, made in FAMILIES:
    before = None
    for uses in sizes:
        t = Terms()
        data = returning_container(t, made(t, uses))
        with open(path, "wb") as out:
            out.write(data)
        seconds, megabytes, note = timed([binary, "check", "tag", path], work, start, "accepted")
        failed = failed or note != ""
        name, times = ("", "%.2f" % (seconds / before)) if before else (family, "")
        text = "| %s | {:,} | {:,} | {:,} | %.2f s | %.0f MB | %s |%s" % (name, seconds, megabytes, times, note)
        print(text.format(uses, entries_of(data), len(data)), flush=True)
        before = seconds
sys.exit(1 if failed else 0)
PY
