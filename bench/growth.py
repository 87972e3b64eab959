"""How the cost of check, prove, bpf, host, pcc_native and pcc_auto grows as what they read doubles: a part of
bench/all.sh."""
import os, struct, sys
from hostile import LOOP, bounds_of_one, implications, loops_bare, high
from terms import *

STORE, LOAD, TEST_1 = 0xB4320000, 0xA4320000, 0x44203000
RETURN_A = struct.pack("<HBBI", 0x16, 0, 0, 0)


def facts(count):
    t = Terms()
    return returning_container(t, instead(t, *conjunction(t, [reflexive(t, t.lit(k)) for k in range(count)])))


def under_hypotheses(count):
    t = Terms()
    return returning_container(t, under_equality(t, contexts(t, 40, count)))


def stores(count):
    return container(Terms(), FILTER, [STORE] * count + [LOAD, TEST_1, RETURN])


def invariant(made, *numbers):
    t = Terms()
    return container(t, FILTER, [LOOP], [(0, made(t, *numbers))])


def loads(count):
    """A program of classic BPF: so many instructions, the last of which returns A."""
    return b"".join(struct.pack("<HBBI", 0x20, 0, 0, 53 - 8 * (n % 7)) for n in range(count - 1)) + RETURN_A


def script(agents, turns):
    """A script of `host`: so many agents of a loop without an end, and turns of 1,000 steps for each in order."""
    text = "load filter examples/endless/container examples/first/packets\n" * agents
    return (text + "".join("turn %d 1000\n" % (turn % agents) for turn in range(turns))).encode()


# What grows, how many there are of it in the row with the most, of what, what makes the file of so many, the words of the
# command (pcc's, if it doesn't begin with another program) with the file's name in the place of IN, and how the first line
# begins.
FAMILIES = [
    ("check, facts", 26160, "facts", facts, "check tag IN", "accepted"),
    ("check, a word of 40 parts under hypotheses", 14400, "hypotheses", under_hypotheses, "check tag IN", "accepted"),
    ("prove, stores in a row", 1000, "stores", stores, "prove filter IN OUT", "written "),
    ("check, these stores in a row", 1000, "stores", stores, "check filter OUT", "accepted"),
    ("prove, bounds of one word", 20000, "bounds", lambda n: invariant(bounds_of_one, n), "prove filter IN OUT", "written "),
    ("prove, nested implications, all hypotheses different", 296, "implications",
     lambda n: invariant(implications, n, 1), "prove filter IN OUT", "written "),
    ("bpf, loads and a return", 40, "instructions", loads, "bpf IN OUT", "written "),
    ("host, 1,000 steps a turn, 4 agents", 4000, "turns", lambda n: script(4, n), "host IN", "turn 0 0: out of steps"),
    ("native, these stores in a row", 1000, "stores", stores, "pcc_native filter OUT OBJECT", "written "),
    ("auto, loops without invariants", 248, "loops", loops_bare, "pcc_auto filter IN OUT", "written "),
    ("auto, a sum in an invariant, and a load that isn't allowed", 1600, "parts", high, "pcc_auto filter IN OUT", "part 1, "),
    ("host, loads of agents, one turn each", 16, "agents", lambda n: script(n, n), "host IN", "turn 0 0: out of steps"),
]


def words_of(programs, command, places):
    """The words of a command, with the files' names in their places."""
    first, *others = command.split()
    words = [programs[first], *others] if first in programs else [programs["pcc"], first, *others]
    return [places.get(word, word) for word in words]


def rows(programs, work, once, tables):
    """Prints the table of growth: four rows of each family, the last of which has the most."""
    sys.setrecursionlimit(100000)
    tables.table("growth: cost of files that double in size; processor time without start-up, least of nine; the ratio is to a file half as large",
                 "command and what grows", "count", "of", "file, bytes", "processor, ms", "ratio")
    places = {word: work + "/growth." + word.lower() for word in ("IN", "OUT", "OBJECT")}
    least = lambda words: min((once(words) for _ in range(9)), key=lambda run: run[2])
    start = {name: least([program])[2] for name, program in programs.items()}
    for name, most, unit, made, command, wanted in FAMILIES:
        before, own = None, start.get(command.split()[0], start["pcc"])
        for count in (most // 8, most // 4, most // 2, most):
            with open(places["IN"], "wb") as file:
                file.write(made(count))
            read = "IN" if "IN" in command.split() else "OUT"
            if read == "OUT":  # what `prove` writes
                once([programs["pcc"], "prove", "filter", places["IN"], places["OUT"]])
            size = os.path.getsize(places[read])
            text, status, seconds, _ = least(words_of(programs, command, places))
            if not text.decode().startswith(wanted):
                tables.expected("%s of %s: %d" % (wanted.strip(), name, count), text.decode().split("\n")[0] or "status %d" % status)
            seconds = max(seconds - own, 1e-5)
            tables.row(name, str(count), unit, str(size), "%.2f" % (seconds * 1e3), "%.2f" % (seconds / before) if before else "")
            before = seconds
