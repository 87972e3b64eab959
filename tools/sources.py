"""Reads the text of the repository: the rooms of crates.txt, first sentences of docs, functions with their clauses, and
types and constants of the code. A module that other scripts of tools/ import; it is no command."""
from __future__ import annotations

import glob
import os
import re
from dataclasses import dataclass, field
from typing import Dict, FrozenSet, Iterator, List, Optional, Set, Tuple

TOP = os.path.dirname(os.path.dirname(os.path.abspath(__file__)))
MADE = ("crates/README.md", "docs/CLAUSES.md")  # the pages that a command writes

CRATE_LINE = re.compile(r"([a-z0-9_]+)[^:]*:(.*)")
ITEM = r"(?:fn|struct|enum|trait|type|const|static|mod)"
ATTRIBUTE = re.compile(r"\s*#!?\[")
SENTENCE_END = re.compile(r"(?<=[.!?])\s+(?=[A-Z0-9`\[(*\"])")
CODE_SPAN = re.compile(r"`[^`]*`")
CLAUSE = re.compile(r"^[ ]*(requires|ensures)\b *(\w*)[^{\n]*\{", re.M)
ITEM_HEAD = re.compile(r"(?:pub(?:\([a-z]+\))? )?(?:enum|struct|trait|type|const|static) (?!fn\b)(\w+)")
CODE_USE = re.compile(r"^(?:pub(?:\([a-z]+\))? )?use ([\w:]+?)(?:::\{([^}]*)\})?;", re.M)
# What isn't read of an item of code: comments, quoted text, attributes.
UNREAD = re.compile(r'//[^\n]*|"(?:\\.|[^"\\])*"|\'(?:\\.|[^\'\\])\'|^[ ]*#!?\[[^\n]*', re.M)


@dataclass
class Crate:
    """A crate as its line in crates.txt has it, with the number of that line."""

    name: str
    uses: List[str]
    line: int


@dataclass
class Room:
    """A heading of crates.txt, the comment under it, and its crates in their order."""

    title: str
    text: str = ""
    crates: List[Crate] = field(default_factory=list)


@dataclass(frozen=True)
class Clause:
    """A `requires` or `ensures` clause; its name is empty if it has none."""

    kind: str
    name: str
    text: str


@dataclass(frozen=True)
class Function:
    """A function. Its owner is the type or trait that it is of, or empty; `implements` is the trait that an `impl`
    gives it for, or empty. `arguments` are its own names in its clauses, and `contract` is the text of its clauses."""

    line: int
    owner: str
    implements: str
    name: str
    doc: str
    arguments: FrozenSet[str]
    clauses: Tuple[Clause, ...]
    contract: str

    @property
    def full_name(self) -> str:
        return "%s::%s" % (self.owner, self.name) if self.owner else self.name


@dataclass(frozen=True)
class Trait:
    """A public trait with the names of its `ghost` members."""

    line: int
    name: str
    doc: str
    ghosts: Tuple[str, ...]


@dataclass(frozen=True)
class Item:
    """A type, trait or constant of a crate's code: its text, and its first line and their number, both with its doc."""

    path: str
    line: int
    name: str
    size: int
    text: str


@dataclass(frozen=True)
class Block:
    """An `impl` or a `trait` that is open: of an `impl` the trait may be empty, of a `trait` the type is."""

    of_type: str = ""
    of_trait: str = ""

    @property
    def name(self) -> str:
        return self.of_type or self.of_trait


def read(path: str) -> str:
    with open(path, encoding="utf-8") as file:
        return file.read()


def files(top: str, ending: str) -> Iterator[str]:
    """Yields the files below crates/ whose names have this ending, without those that a build makes."""
    for folder, folders, names in os.walk(os.path.join(top, "crates")):
        folders[:] = sorted(name for name in folders if name != "out")
        yield from (os.path.join(folder, name) for name in sorted(names) if name.endswith(ending))


def rooms(top: str) -> List[Room]:
    """Returns the rooms of crates.txt. Crates before the first heading are in a room without a title."""
    found = [Room("")]
    for number, line in enumerate(read(os.path.join(top, "crates.txt")).splitlines(), 1):
        if line.startswith("# ## "):
            found.append(Room(line[5:].strip()))
        elif line.startswith("#"):
            if found[-1].title and not found[-1].crates:
                found[-1].text = (found[-1].text + " " + line[1:].strip()).strip()
        else:
            match = CRATE_LINE.fullmatch(line.split("#")[0].strip())
            if match:
                found[-1].crates.append(Crate(match.group(1), match.group(2).split(), number))
    return [room for room in found if room.title or room.crates]


def root_file(top: str, crate: str) -> str:
    """Returns the path of the crate's lib.rt, or of its main.rt if it is a program; empty if it has neither."""
    paths = [os.path.join(top, "crates", crate, "src", name) for name in ("lib.rt", "main.rt")]
    return next((path for path in paths if os.path.exists(path)), "")


def is_of_tests(top: str, path: str) -> bool:
    """Tells whether a file is of tests: of a crate named test_*, or itself named so, or with a name that ends in tests."""
    parts = os.path.relpath(path, os.path.join(top, "crates")).split(os.sep)
    return any(part.startswith("test_") for part in (parts[0], parts[-1])) or parts[-1].endswith("tests.rt")


def source_files(top: str, crate: str) -> List[str]:
    """Returns the crate's files of code: lib.rt first, theorems.rt last, the others by name."""
    found = glob.glob(os.path.join(top, "crates", crate, "src", "**", "*.rt"), recursive=True)
    last = {"lib.rt": 0, "theorems.rt": 2}
    return sorted(found, key=lambda path: (last.get(os.path.basename(path), 1), path))


def first_sentence(paragraph: str) -> str:
    """Returns the paragraph up to the end of its first sentence; a full stop in a code span ends none."""
    masked = CODE_SPAN.sub(lambda span: "`" + "x" * (len(span.group(0)) - 2) + "`", paragraph)
    end = SENTENCE_END.search(masked)
    return paragraph[: end.start()] if end else paragraph


def first_paragraph(lines: List[str], mark: str) -> str:
    """Returns the first paragraph of doc lines, each of which begins with the mark."""
    words: List[str] = []
    for line in lines:
        text = line.strip()[len(mark):].strip()
        if not text and words:
            break
        words.append(text)
    return " ".join(word for word in words if word)


def head_sentence(path: str) -> str:
    """Returns the first sentence of a file's head doc (`//!`)."""
    lines = read(path).splitlines()
    end = next((k for k, line in enumerate(lines) if not line.startswith("//!")), len(lines))
    return first_sentence(first_paragraph(lines[:end], "//!"))


def attributes_above(lines: List[str], at: int) -> int:
    """Returns how many lines of attributes are above line `at` (counted from 0)."""
    begin = at
    while begin > 0 and ATTRIBUTE.match(lines[begin - 1]):
        begin -= 1
    return at - begin


def doc_lines(lines: List[str], at: int) -> List[str]:
    """Returns the doc comment above line `at` (counted from 0), attributes being passed over."""
    begin = end = at - attributes_above(lines, at)
    while begin > 0 and lines[begin - 1].lstrip().startswith("///"):
        begin -= 1
    return lines[begin:end]


def doc_sentence(lines: List[str], at: int) -> str:
    """Returns the first sentence of the doc comment above line `at`, links to items as code alone."""
    sentence = first_sentence(first_paragraph(doc_lines(lines, at), "///"))
    return re.sub(r"\[(`[^`]*`)\](?!\()", r"\1", sentence)


def exported(path: str) -> Set[str]:
    """Returns the names that a file (lib.rt, as a rule) makes public: its own, those that it gives on of its modules,
    and all that its public modules make public."""
    text = read(path)
    names = set(re.findall(r"^pub %s (\w+)" % ITEM, text, re.M))
    for many, one in re.findall(r"^pub use [\w:]+::(?:\{([^}]*)\}|(\w+));", text, re.M):
        names |= set(re.findall(r"\w+", many or one))
    stem, name = os.path.splitext(path)[0], os.path.basename(path)
    folder = os.path.dirname(path) if name in ("lib.rt", "mod.rt") else stem
    for module in re.findall(r"^pub mod (\w+);", text, re.M):
        for inner in (os.path.join(folder, module + ".rt"), os.path.join(folder, module, "mod.rt")):
            names |= exported(inner) if os.path.exists(inner) else set()
    return names


def opened(line: str) -> Block:
    """Returns the block that an `impl` or `trait` line opens; without a name if it opens none."""
    match = re.match(r"(?:pub )?(impl|trait)\b(.*)", line)
    if not match:
        return Block()
    head, before = match.group(2), ""
    while head != before:
        head, before = re.sub(r"<[^<>]*>", "", head), head
    names = re.findall(r"\w+", re.split(r"[{:]|\bwhere\b", head)[0])
    if match.group(1) == "trait":
        return Block(of_trait=names[0])
    return Block(names[names.index("for") + 1], names[0]) if "for" in names else Block(names[0])


def head_end(lines: List[str], at: int) -> int:
    """Returns the line that ends the head of the function at line `at`: the one where its body begins, or the one with
    the semicolon of a function without a body."""
    depth = 0
    for number in range(at, len(lines)):
        line = lines[number]
        is_clause = depth > 0 or CLAUSE.match(line) is not None
        if is_clause:
            depth += line.count("{") - line.count("}")
        if depth == 0 and line.endswith(";") or not is_clause and "{" in line:
            return number
    return len(lines) - 1


def contract_of(lines: List[str], at: int) -> str:
    """Returns the lines from the first clause of the function at line `at` to the end of its head."""
    head = "\n".join(lines[at : head_end(lines, at) + 1])
    begin = CLAUSE.search(head)
    return head[begin.start() :] if begin else ""


def clauses_of(contract: str) -> Iterator[Clause]:
    """Yields the clauses of a contract; a clause's text is what stands between its braces."""
    for match in CLAUSE.finditer(contract):
        depth, end = 1, match.end()
        while end < len(contract) and depth:
            depth += {"{": 1, "}": -1}.get(contract[end], 0)
            end += 1
        yield Clause(match.group(1), match.group(2), " ".join(contract[match.end() : end - 1].split()))


def is_public(block: Block, is_pub: bool, is_inner: bool, name: str, names: Set[str]) -> bool:
    """Tells whether users of the crate see a function: `names` are what the crate makes public."""
    if not is_inner:
        return is_pub and name in names
    if block.of_trait:
        return block.of_trait in names or block.of_type in names
    return is_pub and block.of_type in names


def functions(path: str, names: Optional[Set[str]] = None) -> Iterator[Function]:
    """Yields the functions of a file. If the names that its crate makes public are given, yields those that its users
    see: exported ones, public methods of exported types, and traits' methods."""
    lines = read(path).split("\n")
    block = Block()
    for at, line in enumerate(lines):
        block = opened(line) if opened(line).name else Block() if line == "}" else block
        head = re.match(r"(\s*)(pub(?:\([a-z]+\))? )?(?:extern \"C\" )?fn (\w+)", line)
        if not head or names is not None and not is_public(
            block, head.group(2) == "pub ", bool(head.group(1)), head.group(3), names
        ):
            continue
        owner = block if head.group(1) else Block()
        contract = contract_of(lines, at)
        text = "\n".join(lines[at : head_end(lines, at) + 1])
        arguments = re.findall(r"\b(\w+)\s*:(?!:)", text[: len(text) - len(contract)])
        yield Function(
            at + 1, owner.name, owner.of_trait if owner.of_type else "", head.group(3), doc_sentence(lines, at),
            frozenset(arguments) | {"self", "result"}, tuple(clauses_of(contract)), contract,
        )


def items(path: str) -> Iterator[Item]:
    """Yields the types, traits and constants of a file of code that are in no function or block."""
    lines = read(path).split("\n")
    for at, head in enumerate(map(ITEM_HEAD.match, lines)):
        if head:
            depth, end = 0, at
            while end < len(lines):
                row = UNREAD.sub("", lines[end]).rstrip()
                depth += sum(map(row.count, "([{")) - sum(map(row.count, ")]}"))
                end += 1
                if depth <= 0 and row.endswith((";", "}")):
                    break
            above = attributes_above(lines, at) + len(doc_lines(lines, at))
            size = sum(map(bool, lines[at - above : end]))
            yield Item(path, at - above + 1, head.group(1), size, "\n".join(lines[at:end]))


class Items:
    """The types, traits and constants of the crates' code, read as they are needed."""

    def __init__(self, top: str) -> None:
        self.top = top
        self.crates: Dict[str, List[Item]] = {}
        self.brought: Dict[str, Dict[str, Tuple[str, str]]] = {}

    def of_crate(self, crate: str) -> List[Item]:
        if crate not in self.crates:
            self.crates[crate] = [item for path in source_files(self.top, crate) for item in items(path)]
        return self.crates[crate]

    def named(self, crate: str, name: str, path: str = "") -> List[Item]:
        """Returns the item of this name: of the file if it has one, else of the crate, which may hand on another's."""
        found = [item for item in self.of_crate(crate) if item.name == name]
        if not found:
            root = root_file(self.top, crate)
            other, old = self.uses(root).get(name, ("", "")) if root else ("", "")
            return self.named(other, old) if other not in ("", crate) else []
        return [item for item in found if item.path == path] or found[:1]

    def declared(self, crate: str, names: List[str]) -> List[Item]:
        """Returns the item that a path below `specs.declared` names: its modules, its name, and parts of it."""
        count = next((at for at, name in enumerate(names) if name[:1].isupper()), len(names))
        inner = [name for name in names[count:] if name != "TheConstants"]
        paths = [os.path.join(self.top, "crates", crate, "src", *names[:count]) + end for end in (".rt", "/mod.rt")]
        path = next(filter(os.path.exists, paths), "") if count else root_file(self.top, crate)
        return self.named(crate, inner[0], path) if inner else []

    def uses(self, path: str) -> Dict[str, Tuple[str, str]]:
        """Returns the names that the `use` lines of a file of code bring in, each with its crate and its name there."""
        if path not in self.brought:
            own = os.path.relpath(path, os.path.join(self.top, "crates")).split(os.sep)[0]
            found: Dict[str, Tuple[str, str]] = {}
            for module, many in CODE_USE.findall(read(path)):
                head, *inner = module.split("::")
                for name in re.findall(r"[\w:]+(?: as \w+)?", many) if many else inner[-1:]:
                    old, _, new = name.split("::")[-1].partition(" as ")
                    found[new or old] = (own if head == "crate" else head, old)
            self.brought[path] = found
        return self.brought[path]

    def named_by(self, item: Item) -> Iterator[Item]:
        """Yields the items that an item's text names."""
        text = UNREAD.sub("", item.text)
        text = re.sub(r"^    [A-Z]\w*", "", text, flags=re.M) if re.match(r".*\benum ", text) else text
        own = os.path.relpath(item.path, os.path.join(self.top, "crates")).split(os.sep)[0]
        for path in set(re.findall(r"(?:\w+::)*[A-Z]\w*", text)):
            names = path.split("::")
            at = next(at for at, name in enumerate(names) if name[:1].isupper())
            crate, name = (own if names[0] == "crate" else names[0], names[at])
            if at == 0:
                crate, name = self.uses(item.path).get(name, (own, name))
            yield from self.named(crate, name, item.path)


def public_names(top: str, crate: str) -> Set[str]:
    """Returns the names that the crate makes public; none if it is a program."""
    path = root_file(top, crate)
    return exported(path) if path.endswith("lib.rt") else set()


def crate_functions(top: str, crate: str) -> Iterator[Tuple[str, Function]]:
    """Yields the public functions of a crate, each with the path of its file."""
    names = public_names(top, crate)
    for path in source_files(top, crate) if names else ():
        for function in functions(path, names):
            yield path, function


def public_traits(path: str, names: Set[str]) -> Iterator[Trait]:
    """Yields the public traits of a file."""
    lines = read(path).split("\n")
    for at, line in enumerate(lines):
        block = opened(line)
        if block.of_trait and not block.of_type and block.of_trait in names:
            end = next((k for k in range(at, len(lines)) if lines[k] in ("}", line if line.endswith("{}") else "}")), at)
            ghosts = re.findall(r"^    ghost (\w+):", "\n".join(lines[at:end]), re.M)
            yield Trait(at + 1, block.of_trait, doc_sentence(lines, at), tuple(ghosts))


def implementations(top: str) -> Dict[str, List[str]]:
    """Returns for each trait the public types of the repository that implement it, in the order of their names."""
    found: Dict[str, Set[str]] = {}
    public: Set[str] = set()
    for crate in sorted(os.listdir(os.path.join(top, "crates"))):
        public |= public_names(top, crate)
        for path in source_files(top, crate):
            for block in map(opened, read(path).split("\n")):
                if block.of_type and block.of_trait:
                    found.setdefault(block.of_trait, set()).add(block.of_type)
    return {name: sorted(types & public) for name, types in found.items()}


def cell(text: str) -> str:
    """Returns the text as a cell of a Markdown table has it."""
    parts = re.split(r"(`[^`]*`)", text.replace("|", "\\|"))
    return "".join(part if at % 2 else part.replace("<", "&lt;") for at, part in enumerate(parts))


def write_or_check(page: str, text: str, is_check: bool, command: str) -> int:
    """Writes a page, a path from the top, or only compares it with the text. Returns the exit status."""
    path = os.path.join(TOP, page)
    is_same = os.path.exists(path) and read(path) == text
    if is_check and not is_same:
        print("%s isn't up to date: run %s and commit the page" % (page, command))
        return 1
    if not is_same:
        with open(path, "w", encoding="utf-8") as file:
            file.write(text)
    print("%s: %s" % (page, "up to date" if is_same else "written"))
    return 0
