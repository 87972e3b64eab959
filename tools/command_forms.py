"""The forms of the programs' command lines, for man pages and completions: see tools/manual.

docs/FORMATS.md has pcc's forms, in the first block below "Command line". The help text of pcc_view has its own, with a
text for each command, and those of pcc_auto and pcc_native have their one form. share/words.tsv has the texts of pcc's commands and of
the flags.
"""
import os
import re
from typing import Dict, List, NamedTuple, Optional, Tuple

TOP = os.path.dirname(os.path.dirname(os.path.abspath(__file__)))
POLICIES = ["filter", "tag", "table"]
HELP_SOURCE = "crates/view_cli/src/texts.rt"
AUTO_HELP_SOURCE = "crates/auto_cli/src/texts.rt"
NATIVE_HELP_SOURCE = "crates/native_cli/src/texts.rt"
FLAG = re.compile(r"\[(--[a-z0-9-]+)(?: ([A-Z]+))?\]")  # as a form has it


class Fault(Exception):
    """What is wrong with a file that this reads, and what to do."""


class Command(NamedTuple):
    """A command of a program; the only one of a program has no name."""

    name: str
    forms: List[str]  # what follows the program's name, a line each
    text: str
    takes_policy_file: bool  # whether POLICY may be `@` and the name of a file

    def values(self) -> List[str]:
        """Returns the names of the arguments, without flags."""
        return FLAG.sub("", self.forms[0]).replace("[", "").replace("]", "").split()[1:]

    def optional(self) -> List[str]:
        """Returns the names of the arguments that may be left out."""
        return re.findall(r"\[([A-Z]+)\]", self.forms[0])

    def flags(self) -> List[Tuple[str, str]]:
        """Returns the flags, each with the name of its value, empty if it has none."""
        return list(dict.fromkeys(flag for form in self.forms for flag in FLAG.findall(form)))

    def kinds(self) -> List[str]:
        """Returns what each argument is: `policy`, `policy_or_file`, `file` or `number`."""
        policy = "policy_or_file" if self.takes_policy_file else "policy"
        return [policy if name == "POLICY" else "number" if len(name) == 1 else "file" for name in self.values()]


class Program(NamedTuple):
    """A program with its commands, in the order of the text that lists them."""

    name: str
    commands: List[Command]
    alone: Dict[str, str]  # flags that are the only argument, with their texts
    examples: List[str]


def read(path: str) -> str:
    """Returns the text of a file, named from the top."""
    try:
        with open(os.path.join(TOP, path), encoding="utf-8") as file:
            return file.read()
    except OSError as fault:
        raise Fault("can't read %s: %s" % (path, fault.strerror)) from fault


def version() -> str:
    """Returns the version that `pcc_view --version` prints. The gate compares this file with what it prints."""
    words = read("crates/view_main/stdout").split()
    if words[:1] != ["pcc_view"] or not re.fullmatch(r"\d+\.\d+\.\d+", words[1]):
        raise Fault("crates/view_main/stdout: the first line isn't `pcc_view N.N.N`")
    return words[1]


def date() -> str:
    """Returns the date of the version, from the first heading of CHANGELOG.md that has one."""
    found = re.search(r"^## (\S+), (\d{4}-\d\d-\d\d)$", read("CHANGELOG.md"), re.M)
    if not found or found[1] != version():
        raise Fault("CHANGELOG.md: the first version has to be `## %s, YYYY-MM-DD`, as pcc_view says" % version())
    return found[2]


def words(of: str) -> Dict[str, str]:
    """Returns the texts of share/words.tsv that are of a program, or of `flag`."""
    rows = [line.split("\t") for line in read("share/words.tsv").splitlines() if line and line[0] != "#"]
    return {row[1]: row[2] for row in rows if row[0] == of}


def help_text(path: str = HELP_SOURCE) -> str:
    """Returns the text of a program's `--help`, from the literal in its source."""
    source = read(path).partition("fn print_help")[2]
    literal = re.search(r'b"((?:[^"\\]|\\.)*)"', source, re.S)
    if not literal:
        raise Fault(path + ": print_help has no byte string")
    joined = re.sub(r"\\\n\s*", "", literal[1])
    return joined.encode().decode("unicode_escape")


def commands_of(lines: List[str], texts: Dict[str, str], where: str, takes_file: bool) -> List[Command]:
    """Returns the commands of forms, each with all that begin with it. A form with `@NAME` says that a policy may be a
    file's; with `takes_file` every policy may be.
    """
    forms: Dict[str, List[str]] = {}
    for line in lines:
        forms.setdefault(line.split()[0], []).append(line)
    missing = set(forms) ^ set(texts)
    if missing:
        raise Fault("a command needs a form and a text in %s: %s" % (where, ", ".join(sorted(missing))))
    return [Command(name, own, texts[name], takes_file or any("@NAME" in form for form in own))
            for name, own in forms.items()]


def pcc() -> Program:
    """Returns pcc's commands, by FORMATS and share/words.tsv."""
    block = re.search(r"^## Command line\n+```text\n(.*?)^```", read("docs/FORMATS.md"), re.M | re.S)
    if not block:
        raise Fault('docs/FORMATS.md: no block of forms below "Command line"')
    lines = [line[len("pcc "):] for line in block[1].splitlines() if line.startswith("pcc ")]
    commands = commands_of(lines, words("pcc"), "docs/FORMATS.md and share/words.tsv", False)
    return Program("pcc", commands, {}, [])


def form_of(line: str) -> Optional[Tuple[str, str]]:
    """Returns the form and the text of a line of the help, if it has a form. The text may follow on the next line."""
    found = re.fullmatch(r"pcc_view ([a-z].*?)(?:  +(.*))?", line)
    return (found[1], found[2] or "") if found else None


def pcc_view() -> Program:
    """Returns pcc_view's commands, by its help: a line on the program, the forms, what POLICY is, and examples."""
    head, _, tail = help_text().partition("\n\n")[2].partition("\n\nPOLICY is ")
    lines: List[str] = []
    texts: Dict[str, str] = {}
    for line in head.splitlines():
        form = form_of(line)
        if form:
            lines.append(form[0])
            texts[form[0].split()[0]] = form[1]
        elif line.startswith("  ") and lines:
            texts[lines[-1].split()[0]] = line.strip()
    examples = [line for line in tail.splitlines() if line.startswith("pcc_view ")]
    commands = commands_of(lines, texts, HELP_SOURCE, "@NAME" in tail)
    return Program("pcc_view", commands, words("pcc_view"), examples)


def program_of_one(name: str, source: str) -> Program:
    """Returns a program's only command, which has no name, by its help, which is in the source."""
    text = help_text(source)
    lines = [line[len(name) + 1:] for line in text.splitlines() if line.startswith(name + " ")]
    forms = [line for line in lines if line.startswith("POLICY ")]
    examples = [name + " " + line for line in lines if re.match(r"[a-z@]+ \S*/", line)]
    if len(forms) != 1:
        raise Fault("%s: print_help has to have one line `%s POLICY ..`" % (source, name))
    return Program(name, [Command("", forms, "", "@NAME" in text)], words(name), examples)


def pcc_auto() -> Program:
    return program_of_one("pcc_auto", AUTO_HELP_SOURCE)


def pcc_native() -> Program:
    return program_of_one("pcc_native", NATIVE_HELP_SOURCE)


PROGRAMS = {"pcc": pcc, "pcc_auto": pcc_auto, "pcc_native": pcc_native, "pcc_view": pcc_view}


def programs() -> List[Program]:
    """Returns the programs that share/programs names."""
    names = [line for line in read("share/programs").split("\n") if line and line[0] != "#"]
    unknown = [name for name in names if name not in PROGRAMS]
    if unknown:
        raise Fault("share/programs: tools/command_forms.py has no function for %s" % ", ".join(unknown))
    return [PROGRAMS[name]() for name in names]
