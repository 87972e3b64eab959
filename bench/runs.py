"""A run of a program, with its processor time and its peak memory: what the scripts of bench/ share."""
import collections, os, shutil, statistics, subprocess, sys

Run = collections.namedtuple("Run", "line status seconds megabytes")

# The peak memory of a child counts that of the process that starts it. So GNU time starts it, which
# needs 2 MB and a millisecond, or, where that isn't installed, a small python, which needs 9 to 11 MB.
SMALL = """
import os, sys
_, status, used = os.wait4(os.spawnvp(os.P_NOWAIT, sys.argv[2], sys.argv[2:]), 0)
with open(sys.argv[1], "w") as out:
    print(used.ru_utime + used.ru_stime, used.ru_maxrss, file=out)
code = os.waitstatus_to_exitcode(status)
sys.exit(code if code >= 0 else 128 - code)
"""


def run(words, folder):
    """Runs the words, with a file in the folder for what is measured: what they print, their status (128
    and its number for a signal), seconds of processor time, megabytes at the most."""
    report, time = os.path.join(folder, "measured"), shutil.which("time")
    start = [time, "-f", "- %M", "-o", report] if time else [sys.executable, "-S", "-E", "-c", SMALL, report]
    process = subprocess.Popen([*start, *map(str, words)], stdout=subprocess.PIPE, stderr=subprocess.DEVNULL)
    text = process.stdout.read().decode("utf-8", "replace").strip()
    _, status, used = os.wait4(process.pid, 0)
    process.returncode = os.waitstatus_to_exitcode(status)
    with open(report) as lines:
        seconds, kilobytes = lines.read().split()[-2:]
    own = used.ru_utime + used.ru_stime if seconds == "-" else float(seconds)
    return Run(text, process.returncode, own, int(kilobytes) / 1024)


def start_up(binary, folder):
    """Seconds of processor time of the program without words, the least of nine."""
    return min(run([binary], folder).seconds for _ in range(9))


def timed(words, folder, start, wanted):
    """Five runs of the words: the median of seconds, without so many for start-up, the median of megabytes,
    and a note where the line, or the status where there is none, isn't the one wanted."""
    runs = [run(words, folder) for _ in range(5)]
    others = {r.line or "status %d" % r.status for r in runs} - {wanted}
    note = "".join(" %s EXPECTED %s" % (line, wanted) for line in sorted(others))
    seconds = statistics.median(r.seconds for r in runs) - start
    return max(seconds, 1e-5), statistics.median(r.megabytes for r in runs), note
