"""A run of bench/all.sh as text: how it is printed, and how bench/plots reads it.

A run is blocks of lines, with an empty line between them. The first block says when and on what the run was made, the
last how long it took: a line a fact, its name and its text. Every other block is a table, for example:

    limits: files at limits; processor time, median of three
    command                        processor, ms  times prove
    prove of 1,003 stores                   31.2            -
    check of these stores                   99.4         3.19
    missing: a program that isn't installed

Its first line has the table's name, its title and how it was measured. Its second has the head of each column, with
the unit. Two blanks or more are between cells, and `-` is an empty cell. A line `EXPECTED ..` says that the run failed.
"""
from __future__ import annotations

import datetime
import hashlib
import os
import platform
import re
import shutil
import subprocess
import time
from typing import Dict, Iterator, List, NamedTuple, Tuple

FIRST, NEXT = 52, 12  # letters of a row's name, and of each other cell at least
EMPTY, MISSING, EXPECTED = "-", "missing: ", "EXPECTED "
GAP = re.compile(r"  +")
TITLE = re.compile(r"([a-z]+): ([^;]+)(?:; (.+))?")
NEEDED = ("date", "machine", "kit", "program", "commit", "took")


class Fault(Exception):
    """What is wrong with the text of a run, and in which line."""


class Table(NamedTuple):
    name: str
    title: str
    measured: str  # how
    columns: List[str]
    rows: List[List[str]]
    missing: List[str]


class Run(NamedTuple):
    facts: Dict[str, str]
    tables: List[Table]


# ---- printing


class Printer:
    """Prints a run, each line as soon as it is known."""

    def __init__(self) -> None:
        self.widths: List[int] = []
        self.failed = False
        self.start = time.monotonic()

    def fact(self, name: str, text: str) -> None:
        print("%-9s  %s" % (name, " ".join(text.split())), flush=True)

    def table(self, title: str, *columns: str) -> None:
        """Begins a table. The title is as the second line of this file's example."""
        self.widths = [FIRST] + [max(len(it), NEXT) for it in columns[1:]]
        print("\n" + title)
        self.row(*columns)

    def row(self, name: str, *cells: str) -> None:
        """Prints a row; an empty cell may be left out at the end."""
        filled = [it or EMPTY for it in cells] + [EMPTY] * (len(self.widths) - 1 - len(cells))
        print(name.ljust(FIRST) + "".join("  " + it.rjust(width) for it, width in zip(filled, self.widths[1:])), flush=True)

    def missing(self, text: str) -> None:
        """Prints which rows the table hasn't, and why."""
        print(MISSING + text, flush=True)

    def expected(self, wanted: str, got: str) -> None:
        """Prints that the run failed: what was wanted, and what came instead."""
        self.failed = True
        print("%s%s, got %s" % (EXPECTED, wanted, " ".join(got.split())), flush=True)

    def begin(self, binary: str, is_given: bool) -> None:
        """Prints when and on what the run is made."""
        now = datetime.datetime.now(datetime.timezone.utc)
        self.fact("date", "%s UTC, load average %.2f" % (now.strftime("%Y-%m-%d %H:%M"), os.getloadavg()[0]))
        self.fact("machine", machine())
        self.fact("kit", kit())
        self.fact("program", program(binary, is_given))
        self.fact("commit", commit(os.path.dirname(os.path.abspath(__file__))))

    def end(self) -> None:
        print()
        self.fact("took", "%.0f s of the clock" % (time.monotonic() - self.start))


def machine() -> str:
    """Returns the processors, the memory and the system of this machine."""
    with open("/proc/cpuinfo", encoding="utf-8") as file:
        models = re.findall(r"(?m)^model name\s*: (.*)$", file.read())
    model = re.sub(r"\((?:R|TM)\)", "", models[0]) if models else "unknown processor"
    memory = os.sysconf("SC_PAGE_SIZE") * os.sysconf("SC_PHYS_PAGES") / 2 ** 30
    version = ".".join(platform.release().split(".")[:2])
    return "%d processors, %s, %.1f GiB of memory, %s %s, %s" % (
        os.cpu_count() or 1, model, memory, platform.system(), version, platform.machine())


def answer(words: List[str], folder: str = ".") -> str:
    """Returns what a command prints; nothing if it isn't there or fails."""
    if not shutil.which(words[0]):
        return ""
    done = subprocess.run(words, cwd=folder, stdout=subprocess.PIPE, stderr=subprocess.DEVNULL, check=False)
    return done.stdout.decode("utf-8", "replace").strip() if done.returncode == 0 else ""


def kit() -> str:
    """Returns the line of the kit on the path, which isn't always the one that built a program that PCC gives."""
    return answer(["rt", "version"]) or "unknown: no rt is on the path"


def program(binary: str, is_given: bool) -> str:
    """Returns whose program is measured, its size and the head of its digest."""
    with open(binary, "rb") as file:
        data = file.read()
    whose = "given by PCC" if is_given else "the proved pcc"
    return "%s, %s bytes, SHA-256 %s" % (whose, format(len(data), ","), hashlib.sha256(data).hexdigest()[:16])


def commit(folder: str) -> str:
    """Returns the number of the commit that the folder is of, and whether scripts or crates have changed since."""
    number = answer(["git", "rev-parse", "--short=12", "HEAD"], folder)
    changed = answer(["git", "status", "--porcelain", "-uno", "--", ":/bench", ":/crates"], folder)
    return number + ", with changes" * bool(changed) if number else "unknown: no git repository"


# ---- reading


def blocks(text: str) -> Iterator[Tuple[int, List[str]]]:
    """Yields the blocks of a text, each with the number of its first line."""
    begin = 1
    block: List[str] = []
    for number, line in enumerate(text.split("\n") + [""], 1):
        if line.startswith(EXPECTED):
            raise Fault("line %d: the run failed: %s" % (number, line))
        if line.strip():
            begin = begin if block else number
            block.append(line.rstrip())
        elif block:
            yield begin, block
            block = []


def facts_of(number: int, block: List[str]) -> Dict[str, str]:
    """Returns the facts of a block that begins at a line."""
    found = {}
    for at, line in enumerate(block, number):
        cells = GAP.split(line, 1)
        if len(cells) != 2:
            raise Fault("line %d: expected a name, two blanks and a text: %s" % (at, line))
        found[cells[0]] = cells[1]
    return found


def table_of(number: int, block: List[str]) -> Table:
    """Returns the table of a block that begins at a line."""
    head = TITLE.fullmatch(block[0])
    if head is None or len(block) < 2:
        raise Fault("line %d: expected a table, NAME: TITLE and a line of column heads: %s" % (number, block[0]))
    columns = GAP.split(block[1])
    table = Table(head.group(1), head.group(2), head.group(3) or "", columns, [], [])
    for at, line in enumerate(block[2:], number + 2):
        cells = GAP.split(line)
        if line.startswith(MISSING):
            table.missing.append(line[len(MISSING):])
        elif len(cells) != len(columns):
            raise Fault("line %d: %d cells, but the table has %d columns: %s" % (at, len(cells), len(columns), line))
        else:
            table.rows.append(cells)
    return table


def read(text: str) -> Run:
    """Reads a run. Raises Fault if the text isn't one, or if the run failed or didn't end."""
    run = Run({}, [])
    for number, block in blocks(text):
        if GAP.search(block[0]):
            run.facts.update(facts_of(number, block))
        else:
            table = table_of(number, block)
            if any(table.name == it.name for it in run.tables):
                raise Fault("line %d: the table `%s` comes twice" % (number, table.name))
            run.tables.append(table)
    for name in NEEDED:
        if name not in run.facts:
            raise Fault("there is no line `%s`: this isn't what a whole run of bench/all.sh printed" % name)
    return run
