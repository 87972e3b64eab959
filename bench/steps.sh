#!/usr/bin/env bash
# Times `pcc ref` and `pcc run` of a proved endless loop on one packet, with 1 step and with 200,000,000:
# processor time, median of five each, and how much longer or shorter `run` takes.
# PCC is the program that is measured; without it tools/build builds the proved one.
#
# usage: bench/steps.sh
set -eu
top=$(cd "$(dirname "${BASH_SOURCE[0]}")/.." && pwd)
. "$top/tools/usage.sh"
usage 0 "$@"
. "$top/bench/program.sh"
python3 - "$PCC" "$top/examples" <<'PY'
import os, statistics, subprocess, sys

binary, examples = sys.argv[1:]

def once(command, steps):
    words = [binary, command, "filter", examples + "/endless/container", examples + "/first/packets", "--steps", str(steps)]
    process = subprocess.Popen(words, stdout=subprocess.PIPE)
    line = process.stdout.read().decode().strip()
    _, status, used = os.wait4(process.pid, 0)
    assert line == "0: out of steps" and status == 0, line
    return used.ru_utime + used.ru_stime

times = {}
for steps in (1, 200000000):
    for command in ("ref", "run"):
        times[command] = statistics.median(once(command, steps) for _ in range(5))
        print("%s, %d steps: %.3f s" % (command, steps, times[command]))
print("run takes %+.1f %% of ref's time more" % (100 * (times["run"] / times["ref"] - 1)))
PY
