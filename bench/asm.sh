#!/usr/bin/env bash
# Times `pcc asm` on sources at its limits, median of five: the line that is printed, processor time and
# peak memory; and GNU as for Alpha on the same 1,024 instructions, where it is installed.
# PCC is the program that is measured; without it tools/build builds the proved one.
#
# usage: bench/asm.sh
set -eu
top=$(cd "$(dirname "${BASH_SOURCE[0]}")/.." && pwd)
. "$top/tools/usage.sh"
usage 0 "$@"
work=$(mktemp -d)
trap 'rm -rf "$work"' EXIT
. "$top/bench/program.sh"
python3 - "$top/bench" "$PCC" "$work" <<'PY'
import shutil, statistics, sys
sys.path.insert(0, sys.argv[1])
from runs import run

binary, work = sys.argv[2:]

def row(name, source, wanted, policy="filter"):
    with open(work + "/source", "w") as out:
        out.write(source)
    runs = [run([binary, "asm", policy, work + "/source", work + "/out"], work) for _ in range(5)]
    line = runs[0].line
    print("%-52s %6.3f s %5.0f MB  %9d bytes  %s%s" % (name, statistics.median(r.seconds for r in runs),
          statistics.median(r.megabytes for r in runs), len(source), line, "" if line.startswith(wanted) else "  EXPECTED " + wanted))

LIMIT, LINE = 1048576, 2048
insns = ["addq $%d,%d,$%d" % (k % 8, k % 256, (k + 1) % 8) for k in range(1023)] + ["ret"]
forms = [".inv (all i (imp (ult i r17) (eq (band (add r%d %d) 7) (sel (upd m r16 %d) i))))" % (k % 9, k, k) for k in range(256)]

def filled(lines):  # comments of the longest lines up to the limit
    text = "\n".join(lines) + "\n"
    while len(text) + LINE + 1 <= LIMIT:
        text += "#" * LINE + "\n"
    return text + "#" * (LIMIT - len(text))

both = []
for k, insn in enumerate(insns):
    both += forms[k // 4:k // 4 + 1] if k % 4 == 0 else []
    both.append(insn)
row("1,024 instructions", "\n".join(insns), "written")
row("1,024 instructions, 256 invariants, comments", filled(both), "written")

def nested(length):  # the formula of so many bytes that nests deepest
    depth = (length - 3) // 7
    return "(or tt" * depth + " ff" + ")" * depth

deep = [line for k in range(256) for line in (".inv" + nested(LINE - 4), "nop")] + ["ret"]
row("256 invariants of 2,048 bytes, nested", "\n".join(deep), "written")
wide = []
for k in range(256):
    parts, number = [], 10000 * k + 1000
    while len("".join(parts)) + 4 * len(parts) + 30 < LINE - 10:
        parts.append("(eq %d %d)" % (number, number + 1))
        number += 2
    text = parts[0]
    for part in parts[1:]:
        text = "(or" + text + part + ")"
    wide += [".inv" + text, "nop"]
row("256 invariants of many literals", "\n".join(wide + ["ret"]), "written")
labels = ["l%d:" % k for k in range(120000)]
row("120,000 labels, a branch to each of the last 1,000", "\n".join(labels + ["l%d: nop" % k for k in range(120000, 120023)]
    + ["beq $1,l%d" % k for k in range(119000, 120000)] + ["ret"]), "written")
row("120,000 labels, the last one twice", "\n".join(labels + ["l119999:", "ret"]), "line 120001 DoubleLabel")
assembler = next((name for name in ("alpha-linux-gnu-as", "alpha-unknown-linux-gnu-as") if shutil.which(name)), None)
if assembler is None:
    print("GNU as for Alpha isn't installed: skipped")
else:
    with open(work + "/source", "w") as out:
        out.write("\n".join(insns) + "\n")
    runs = [run([assembler, "-o", work + "/object", work + "/source"], work) for _ in range(5)]
    print("%-52s %6.3f s %5.0f MB" % (assembler, statistics.median(r.seconds for r in runs), statistics.median(r.megabytes for r in runs)))
PY
