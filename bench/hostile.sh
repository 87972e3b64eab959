#!/usr/bin/env bash
# Times `pcc check`, `pcc prove`, `pcc_native` and `pcc_auto` on files made to be slow, each within every limit of the
# format: bytes, processor time, peak memory, and the first line or the status. PCC, PCC_NATIVE and PCC_AUTO name other
# programs. The stack has 8 MiB. Another line than the one expected, more than 2 s or 512 MB of `check` or `pcc_native`,
# more than 5 s of `prove` or 10 s of `pcc_auto`, or more than 1,024 MB of these, ends the run with status 1.
#
# usage: bench/hostile.sh [WORD ..]   with words, only the families whose name has one of them
#
# For `check` (bench/hostile.py):
#   a  formulas under words and memories, each level in two contexts
#   b  invariants of many leaves, changed by many ways or many instructions
#   c  proofs by cases, one in both cases of the next
#   d  a conjunction of rights by hypotheses, as `prove` proves it
#   e  words of many parts under many hypotheses, and instances of a predicate
#   f  formulas under many binders, in two contexts
#   g  many variables in two contexts
#   n  proved invariants of many leaves that instructions leave as they are, or set to the same
#   o  a formula under many counts of binders in a parameter, so that rows are kept and no trees made
# For `prove`, as an invariant:
#   h  equations of sums of 64 words in the worst order
#   i  deep implications, whose hypotheses are raised at each level
#   j  rights that are tried for each access, in vain
#   k  bounds that are tried for each relation, in vain
#   l  bounds of one word
#   m  disjunctions whose sides bring a hypothesis each, so that one goal stands in many contexts
# For `pcc_native`:
#   p  code of as many returns and loop heads as there can be, and containers that are dear to check
# For `pcc_auto`:
#   q  loops without invariants, as many as there can be
#   r  invariants whose terms share their parts, beside loops without any, each of which takes a round
#   s  an invariant that is dear to prove, and a load behind it that isn't allowed: it is proved as it stands, for the
#      search, for what is kept, and for the goals that are printed
#   t  an invariant for which many hypotheses are hints, on many ways
#   u  lemmas that are dear to check, and code that can't be proved
#   v  invariants of the greatest height
set -eu
top=$(cd "$(dirname "${BASH_SOURCE[0]}")/.." && pwd)
. "$top/tools/usage.sh"
usage any "$@"
work=$(mktemp -d)
trap 'rm -rf "$work"' EXIT
. "$top/bench/program.sh"
set_measured PCC_NATIVE pcc_native
set_measured PCC_AUTO pcc_auto
ulimit -s 8192
python3 "$top/bench/hostile.py" "$PCC" "$PCC_NATIVE" "$PCC_AUTO" "$work" "$@"
