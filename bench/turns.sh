#!/usr/bin/env bash
# Times the turns of `pcc host`: 1, 4 and 16 agents of a proved endless loop, 5,000 turns in all of 1, 1,000 and
# 100,000 steps each, beside `pcc run` of the same steps on one packet. Processor time, the least of sixty (of
# five at 100,000 steps), less what the same script takes without turns, which is as much; output goes to /dev/null.
#
# PCC is the program that is measured; without it tools/build builds the proved one.
#
# usage: bench/turns.sh
set -eu
top=$(cd "$(dirname "${BASH_SOURCE[0]}")/.." && pwd)
. "$top/tools/usage.sh"
usage 0 "$@"
work=$(mktemp -d)
trap 'rm -rf "$work"' EXIT
. "$top/bench/program.sh"
python3 - "$PCC" "$top/examples" "$work" <<'PY'
import os, subprocess, sys

binary, examples, work = sys.argv[1:]
CONTAINER, PACKETS = examples + "/endless/container", examples + "/first/packets"
TURNS = 5000

def once(words):
    process = subprocess.Popen([binary] + words, stdout=subprocess.DEVNULL)
    _, status, used = os.wait4(process.pid, 0)
    assert status == 0, words
    return used.ru_utime + used.ru_stime

def least(words, steps):
    return min(once(words) for _ in range(60 if steps <= 1000 else 5))

def host(agents, turns, steps):
    script = work + "/script"
    with open(script, "w") as file:
        file.write("load filter %s %s\n" % (CONTAINER, PACKETS) * agents)
        file.writelines("turn %d %d\n" % (turn % agents, steps) for turn in range(turns))
    assert os.path.getsize(script) <= 65536, "the folder's name is too long for a script"
    return least(["host", script], steps)

def run(steps, a_turn):
    return least(["run", "filter", CONTAINER, PACKETS, "--steps", str(steps)], a_turn)

start = run(1, 1)
for steps in (1, 1000, 100000):
    alone = run(TURNS * steps, steps) - start
    print("run, %d steps: %.4f s" % (TURNS * steps, alone))
    for agents in (1, 4, 16):
        turns = min(TURNS, (65536 - 200 * agents) // len("turn 15 100000\n"))
        seconds = (host(agents, turns, steps) - host(agents, 0, steps)) * TURNS / turns
        print("host, %2d agents, %d turns of %d steps: %.4f s, %.0f turns a second, %.2f of run's steps a second"
              % (agents, TURNS, steps, seconds, TURNS / seconds if seconds > 0 else 0, alone / seconds if seconds > 0 else 0))
PY
