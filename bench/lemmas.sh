#!/usr/bin/env bash
# Prints a table of containers without lemmas, and with those that tools/lemmas finds: what
# `pcc check` prints and its processor time (median of five), how many lemmas, the weight of the
# proofs, entries and bytes. They are the sources of three `demo N`, as `asm` and `prove` make them,
# and examples/repeats, as its script does, which without lemmas is too heavy.
#
# PCC is the program that is measured; without it tools/build builds the proved one. A line
# that isn't the one expected ends the run with status 1.
#
# usage: bench/lemmas.sh
set -eu
top=$(cd "$(dirname "${BASH_SOURCE[0]}")/.." && pwd)
. "$top/tools/usage.sh"
usage 0 "$@"
work=$(mktemp -d)
trap 'rm -rf "$work"' EXIT
. "$top/bench/program.sh"
python3 - "$top" "$PCC" "$work" <<'PY'
import re, statistics, struct, subprocess, sys
top, binary, work = sys.argv[1:]
sys.path.insert(0, top + "/bench")
from runs import run

failed = False

READABLE = "(all i (imp (and (ult i r17) (eq (band i 7) 0)) (rd (add r16 i))))"
LOOP = """      lda $3,0($31)
      .inv (and (eq (band r3 7) 0) READABLE)
loop: cmpult $3,$17,$4
      beq $4,done
      addq $16,$3,$5
      ldq $6,0($5)
      addq $2,$6,$2
      addq $3,8,$3
      br loop
done: and $2,1,$0
      ret
"""

def demo(n):
    """The source of `demo N`."""
    loads = ["      ldq $1,%d($16)\n      addq $2,$1,$2\n" % (8 * (k % 8)) for k in range(n)]
    return "      lda $2,0($31)\n" + "".join(loads) + LOOP.replace("READABLE", READABLE)

def made(words):
    """What a command prints, which has to end well."""
    done = subprocess.run(words, stdout=subprocess.PIPE, check=True)
    return done.stdout.decode().strip()

def row(name, path, wanted, lemmas, weight):
    global failed
    runs = [run([binary, "check", "filter", path], work) for _ in range(5)]
    line = runs[0].line or "status %d" % runs[0].status
    failed = failed or line != wanted
    with open(path, "rb") as file:
        data = file.read()
    entries = struct.unpack_from("<I", data, 44 + 4 * struct.unpack_from("<I", data, 40)[0])[0]
    seconds = statistics.median(r.seconds for r in runs)
    sizes = " | ".join("{:,}".format(n) for n in (int(weight), entries, len(data)))
    note = "" if line == wanted else " EXPECTED " + wanted
    text = "| %s | %s | %s | `%s` | %.3f s |%s" % (name, lemmas, sizes, line, seconds, note)
    print(text, flush=True)

def rows(name, plain, wanted):
    """The container without lemmas, and the same with them."""
    cited = plain + ".lemmas"
    line = made([top + "/tools/lemmas", plain, cited])
    lemmas, after, before = re.fullmatch(r"lemmas (\d+), weight (\d+), before (\d+)", line).groups()
    row(name, plain, wanted % before if "%" in wanted else wanted, "-", before)
    row(".. with lemmas", cited, "accepted", lemmas, after)

print("| container | lemmas | weight | entries | bytes | `check` | processor time |")
print("|---|---|---|---|---|---|---|")
for n in (3, 100, 400):
    source, plain = work + "/source", work + "/demo"
    with open(source, "w") as out:
        out.write(demo(n))
    made([binary, "asm", "filter", source, plain, "--v2"])
    made([binary, "prove", "filter", plain, plain])
    rows("`demo %d`" % n, plain, "accepted")
source, plain = top + "/examples/repeats/source.s", work + "/repeats"
made([binary, "asm", "filter", source, plain, "--v2"])
made([top + "/examples/repeats/make_container", plain, plain])
rows("`examples/repeats`", plain, "refused 10 ProofWeight %s")
sys.exit(1 if failed else 0)
PY
