"""Reads the definitions of specs/, and what each of them depends on. A module that tools/believed and tools/measures
import; it is no command.

A name counts as a dependency if the file declares it or brings it in by a `use` line, and nothing nearer binds it: no
parameter, pattern, `λ`, `let` or `←`. A field is named by `.field` alone, so it is none, whatever else has its name.
"""
from __future__ import annotations

import os
import re
from dataclasses import dataclass, field
from typing import Dict, FrozenSet, Iterable, Iterator, List, NamedTuple, Optional, Set, Tuple, Union

import sources

Names = FrozenSet[str]
Path = Tuple[str, ...]  # a name with what follows it after dots, such as `M.Comma` or `row.number`

TOKEN = re.compile(r'"(?:\\.|[^"\\])*"|--[^\n]*|[^\s(){}.;,@"«»]+|[(){}.;,@«»]')
USE = re.compile(r"^[ ]*(pub |ghost |)use Rattle\.([\w.+-]+?)(?:\.\{([^}]*)\})?(?: as ([^\s;]+))?;?[ ]*$", re.M)
PLACE = "◌"  # where an operator's argument stands in its name
MARKS = {"pattern", "unfoldable", "abbrev", "pub", "axiom"}
OPENING, CLOSING = {"(", "{", "["}, {")", "}", "]"}
NO_NAMES = OPENING | CLOSING | set(".;,@«»|=:_") | {"→", "×", "↦", "λ", "←"}
SEQUENCE = "◌>>=◌"  # the operator that a `do` block stands for


class Token(NamedTuple):
    """A token, where it is, whether a blank is before it, and whether it is the first of its line."""

    text: str
    line: int
    column: int
    is_glued: bool
    is_first: bool


def tokens_of(text: str, line: int = 0) -> List[Token]:
    """Returns the tokens of a text whose first line has this number; comments are none."""
    found = []
    for number, row in enumerate(text.split("\n"), line):
        end, is_first = -1, True
        for match in TOKEN.finditer(row):
            if not match.group().startswith("--"):
                found.append(Token(match.group(), number, match.start(), match.start() == end, is_first))
                end, is_first = match.end(), False
    return found


def is_name(text: str) -> bool:
    return text not in NO_NAMES and text[0] != '"' and not text[0].isdigit()


def is_name_or_number(text: str) -> bool:
    return bool(text) and text not in NO_NAMES


def split(tokens: List[Token]) -> Iterator[List[Token]]:
    """Yields the items of a block: each begins at the column of the first one, at the front of a line."""
    begin = 0
    for at, token in enumerate(tokens):
        if at and token.is_first and token.column <= tokens[0].column:
            yield tokens[begin:at]
            begin = at
    if tokens:
        yield tokens[begin:]


def index_of(tokens: List[Token], texts: Set[str], begin: int = 0) -> int:
    """Returns the index of the first of these texts outside brackets, or the number of tokens."""
    depth = 0
    for at in range(begin, len(tokens)):
        if depth == 0 and tokens[at].text in texts:
            return at
        depth += (tokens[at].text in OPENING) - (tokens[at].text in CLOSING)
    return len(tokens)


@dataclass
class Frame:
    """An open pair of brackets: the names bound before it, and those bound now; for each `let` those before it with its
    own; for a `do` block its column and those of its next line; and the names that stay bound after the brackets."""

    bracket: str
    outer: Names
    names: Names
    lets: List[Names] = field(default_factory=list)
    column: int = -1
    steps: Names = frozenset()
    binds: Names = frozenset()


class Term:
    """A walk over the tokens of a term or a type, which collects the names in it that nothing in it binds."""

    def __init__(self, tokens: List[Token], bound: Names) -> None:
        self.tokens, self.at = tokens, 0
        self.frames = [Frame("", bound, bound)]
        self.found: List[Path] = []
        while self.at < len(tokens):
            self.step()

    @property
    def bound(self) -> Names:
        """The names that are bound at the end."""
        return self.frames[0].names

    def text(self, at: int) -> str:
        return self.tokens[at].text if at < len(self.tokens) else ""

    def step(self) -> None:
        token, frame = self.tokens[self.at], self.frames[-1]
        self.at += 1
        if token.is_first and token.column == frame.column:
            frame.names = frame.steps
        if token.text in OPENING:
            self.open(token.text)
        elif token.text in CLOSING and len(self.frames) > 1:
            binds = self.frames.pop().binds
            self.frames[-1].names |= binds
        elif token.text in (",", ";", "|"):
            frame.names, frame.lets = frame.outer, []
        elif token.text == "λ":
            names = self.binders({"."})
            self.at += 1
            frame.names |= names
        elif token.text == "let":
            frame.lets.append(frame.names | self.binders({"=", ":"}))
        elif token.text == "in":
            frame.names = frame.lets.pop() if frame.lets else frame.names
        elif token.text == "do":
            self.found.append((SEQUENCE,))
            frame.column, frame.steps = self.tokens[self.at].column, frame.names
        elif token.text == ".":
            self.at += token.is_glued and is_name_or_number(self.text(self.at))
        elif is_name(token.text):
            self.name(token.text)

    def open(self, bracket: str) -> None:
        """Opens a pair of brackets. The names of `(x y : A)` are bound after it."""
        names = self.frames[-1].names
        self.frames.append(Frame(bracket, names, names))
        end = self.at
        while self.text(end) == "_" or self.text(end) and is_name(self.text(end)):
            end += 1
        if end > self.at and self.text(end) == ":" and bracket != "[":
            self.frames[-1].binds = frozenset(token.text for token in self.tokens[self.at : end])
            self.at = end + 1

    def binders(self, ends: Set[str]) -> Names:
        """Returns the names of binders up to one of these ends, and collects the names of their types."""
        end = index_of(self.tokens, ends, self.at)
        names: Set[str] = set()
        types: List[List[Token]] = []
        depth = typed = 0
        for at in range(self.at, end):
            token = self.tokens[at]
            depth += token.text in OPENING
            if token.text in CLOSING:
                typed = 0 if typed == depth else typed
                depth -= 1
            if typed:
                types[-1].append(token)
            elif token.text == ":":
                typed = depth
                types.append([])
            elif is_name(token.text) and not (depth and self.text(at + 1) == "="):
                names.add(token.text)
        self.at = end
        for tokens in types:
            self.found += Term(tokens, self.frames[-1].names | names).found
        return frozenset(names)

    def name(self, text: str) -> None:
        """Collects a name with what follows it after dots, unless it is bound, or names a field or an argument."""
        frame = self.frames[-1]
        if self.text(self.at) == "←":
            frame.steps |= {text}
        elif not (frame.bracket == "{" and self.text(self.at) == "="):
            path = [text]
            while self.text(self.at) == "." and self.tokens[self.at].is_glued and self.is_glued_name(self.at + 1):
                path.append(self.text(self.at + 1))
                self.at += 2
            if text not in frame.names:
                self.found.append(tuple(path))

    def is_glued_name(self, at: int) -> bool:
        return at < len(self.tokens) and self.tokens[at].is_glued and is_name_or_number(self.tokens[at].text)


@dataclass(eq=False)
class Definition:
    """A definition of specs/: a function, a `data` or a `record`.

    `lines` are its lines with the comment above it, and with the heads of the blocks that it is in; `around` are the
    parameters of these blocks, `head` is what follows its name, and `parts` are clauses, constructors or fields.
    """

    path: str
    scope: Scope
    kind: str
    name: str
    lines: Set[int]
    around: List[List[Token]]
    head: List[Token]
    parts: List[List[Token]] = field(default_factory=list)

    def constructors(self) -> Iterator[str]:
        """Yields the names of its constructors."""
        for part in self.parts if self.kind == "data" else []:
            yield from (token.text for token in part[: index_of(part, {":"})])


@dataclass
class Scope:
    """The names that a text brings in by `use` lines: of definitions and of modules, each with where it is; those that
    it hands on; and the definitions that it declares, also by their constructors."""

    items: Dict[str, Tuple[str, str]] = field(default_factory=dict)
    modules: Dict[str, str] = field(default_factory=lambda: {"Rattle": ""})
    handed_on: Set[str] = field(default_factory=set)
    declared: Dict[str, List[Definition]] = field(default_factory=dict)
    operators: Dict[str, str] = field(default_factory=dict)

    def add_operator(self, name: str) -> None:
        self.operators.update({part: name for part in name.split(PLACE) if PLACE in name and part})


def scope_of(text: str) -> Scope:
    """Returns the names that the `use` lines of a text bring in."""
    scope = Scope()
    for mark, module, items, other in USE.findall(text):
        if not items:
            name = other or module.split(".")[-1]
            scope.modules[name] = module
            scope.handed_on |= {name} if mark == "pub " else set()
        for item in filter(None, (item.strip() for item in items.split(","))):
            *inner, old = item.split(" as ")[0].strip().split(".")
            name = item.split(" as ")[-1].strip().split(".")[-1]
            scope.items[name] = (".".join([module] + inner), old)
            scope.handed_on |= {name} if mark == "pub " else set()
            scope.add_operator(name)
    return scope


class Reader:
    """Reads the definitions of a file of specs/ into a scope."""

    def __init__(self, path: str) -> None:
        text = sources.read(path)
        self.path, self.rows = path, text.split("\n")
        self.scope = scope_of(text)
        self.read(tokens_of(text), set(), [])

    def read(self, tokens: List[Token], lines: Set[int], around: List[List[Token]]) -> None:
        """Reads the items of a block, which is in blocks with these lines and parameters."""
        last: Optional[Definition] = None
        above: Set[int] = set()
        for item in split(tokens):
            marks = next((at for at, token in enumerate(item) if token.text not in MARKS), len(item))
            words = item[marks:] or item
            if words[0].text in ("use", "mod"):
                continue
            if words[0].text.startswith("infix"):
                above = self.lines_of(item)
            elif words[0].text in ("mutual", "module"):
                end = 1 if words[0].text == "mutual" else index_of(words, {"where"}) + 1
                self.read(words[end:], lines | self.lines_of(item[: marks + end]), around + [words[2 : end - 1]])
            elif words[0].text in ("data", "record") or self.head_end(words):
                last = self.definition(words, lines | above | self.lines_of(item), around)
                above = set()
            elif last and words[0].text != "unfolding":
                last.parts.append(words)
                last.lines |= self.lines_of(item)
            elif last:
                last.lines |= self.lines_of(item)

    def lines_of(self, item: List[Token]) -> Set[int]:
        """Returns the lines of an item that aren't blank, and those of the comment above it."""
        begin, end = item[0].line, item[-1].line
        while begin > 0 and self.rows[begin - 1].lstrip().startswith("--"):
            begin -= 1
        return {line for line in range(begin, end + 1) if self.rows[line].strip()}

    @staticmethod
    def head_end(words: List[Token]) -> int:
        """Returns the index after the colon of a signature, or 0 if the words are none."""
        at = index_of(words, {":", "="}, 1) if len(words) > 1 and words[1].text == "{" else 1
        return at + 1 if at < len(words) and words[at].text == ":" else 0

    def definition(self, words: List[Token], lines: Set[int], around: List[List[Token]]) -> Definition:
        """Reads a declaration, and declares its name and its constructors."""
        kind = words[0].text if words[0].text in ("data", "record") else "function"
        end = index_of(words, {"where"}) if kind != "function" else len(words)
        name = words[kind != "function"].text
        head = words[2:end] if kind != "function" else words[1:]
        made = Definition(self.path, self.scope, kind, name, lines, around, head)
        for part in split(words[end + 1 :]):
            made.parts.append([token for token in part if token.text != "pub"])
        for declared in (name, *made.constructors()):
            self.scope.declared.setdefault(declared, []).append(made)
            self.scope.add_operator(declared)
        return made


Node = Union[Definition, sources.Item]


def line_count(nodes: Iterable[Node]) -> int:
    """Returns how many lines these have, which are of one file."""
    lines: Set[int] = set()
    for node in nodes:
        lines |= node.lines if isinstance(node, Definition) else set(range(node.line, node.line + node.size))
    return len(lines)


class Library:
    """The definitions of all crates, and the types and constants of their code, read as they are needed."""

    def __init__(self, top: str) -> None:
        self.crates = os.path.join(top, "crates")
        self.scopes: Dict[str, Optional[Scope]] = {}
        self.known: Dict[Node, List[List[Node]]] = {}
        self.code = sources.Items(top)

    def module(self, module: str) -> Optional[Scope]:
        """Returns the names of a module of specs/; nothing if there is no such module in the repository."""
        if module not in self.scopes:
            crate, _, inner = module.partition(".specs")
            path = os.path.join(self.crates, crate, "specs", *(inner.strip(".") or "Lib").split(".")) + ".antt"
            self.scopes[module] = Reader(path).scope if os.path.exists(path) else None
        return self.scopes[module]

    def find(self, module: str, name: str) -> List[Node]:
        """Returns what the name may mean in a module: several definitions if they have a constructor of this name."""
        crate, declared, inner = module.partition(".specs.declared")
        if declared:
            return list(self.code.declared(crate, inner.strip(".").split(".") + [name]))
        scope = self.module(module)
        if scope and name in scope.declared:
            return list(scope.declared[name])
        if scope and name in scope.items and name in scope.handed_on:
            return self.find(*scope.items[name])
        parent, _, last = module.rpartition(".")
        above = self.module(parent) if scope is None and ".specs" in parent else None
        if above and last in above.modules and last in above.handed_on:
            return self.find(above.modules[last], name)
        return []

    def resolve(self, scope: Scope, path: Path) -> List[Node]:
        """Returns what a name may mean in a text with this scope."""
        head = scope.operators.get(path[0], path[0])
        found: List[Node] = list(scope.declared.get(head, []))
        if head in scope.items:
            found += self.find(*scope.items[head])
        for at in range(1, len(path) if not found and head in scope.modules else 1):
            found += self.find(".".join((scope.modules[head],) + path[1:at]).strip("."), path[at])
        return found

    def is_constructor(self, scope: Scope, path: Path) -> bool:
        """Tells whether a name in a pattern is a constructor's, so that it binds no variable."""
        head = scope.operators.get(path[0], path[0])
        name = scope.items[head][1] if head in scope.items else path[-1]
        nodes = self.resolve(scope, path)
        return any(isinstance(node, sources.Item) or name in node.constructors() for node in nodes)

    def pattern(self, scope: Scope, tokens: List[Token], own: str) -> Tuple[Names, List[Path]]:
        """Returns the names that the left side of a clause of `own` binds, and the constructors in it."""
        names: Set[str] = set()
        found: List[Path] = []
        at = 0
        while at < len(tokens):
            begin, at = at, at + 1
            text = tokens[begin].text
            if not is_name(text) or text in (own, *own.split(PLACE)):
                continue
            path = [text]
            while at + 1 < len(tokens) and tokens[at].text == "." and tokens[at].is_glued:
                path.append(tokens[at + 1].text)
                at += 2
            after = tokens[at].text if at < len(tokens) else ""
            is_argument = begin > 0 and tokens[begin - 1].text == "{" and after == "}"
            if not is_argument and self.is_constructor(scope, tuple(path)):
                found.append(tuple(path))
            elif after != "=":
                names.add(text)
        return frozenset(names), found

    def clause(self, scope: Scope, tokens: List[Token], own: str, bound: Names) -> List[Path]:
        """Returns the names that a clause of the function `own` depends on."""
        equals, where = index_of(tokens, {"="}), index_of(tokens, {"where"})
        names, found = self.pattern(scope, tokens[:equals], own)
        locals_ = list(split(tokens[where + 1 :]))
        bound |= names | {item[0].text for item in locals_ if Reader.head_end(item)}
        found += Term(tokens[equals + 1 : where], bound).found
        for item in locals_:
            end = Reader.head_end(item)
            found += Term(item[end:], bound).found if end else self.clause(scope, item, item[0].text, bound)
        return found

    def names_of(self, one: Definition) -> List[Path]:
        """Returns the names that a definition depends on."""
        bound: Names = frozenset()
        found: List[Path] = []
        for tokens in one.around:
            term = Term(tokens, bound)
            found, bound = found + term.found, term.bound
        head = Term(one.head[Reader.head_end(one.head) :], bound)
        found += head.found
        for part in one.parts:
            if one.kind == "function":
                found += self.clause(one.scope, part, one.name, bound)
                continue
            end = index_of(part, {":"})
            found += Term(part[end + 1 :], head.bound).found
            if one.kind == "record":
                head.frames[0].names |= {token.text for token in part[:end]}
        return found

    def nodes_of(self, one: Node) -> List[List[Node]]:
        """Returns for each name that a definition or an item depends on what it may mean."""
        if one not in self.known:
            if isinstance(one, sources.Item):
                self.known[one] = [[node] for node in self.code.named_by(one)]
            else:
                self.known[one] = [self.resolve(one.scope, path) for path in sorted(set(self.names_of(one)))]
        return self.known[one]

    def clause_nodes(self, path: str, function: sources.Function, clause: sources.Clause) -> Iterator[List[Node]]:
        """Yields for each name that a clause of a function depends on what it may mean."""
        if path not in self.scopes:
            self.scopes[path] = scope_of(sources.read(path))
        scope = self.scopes[path]
        assert scope is not None
        return (self.resolve(scope, name) for name in Term(tokens_of(clause.text), function.arguments).found)

    def reached(self, begin: Iterable[List[Node]]) -> Set[Node]:
        """Returns all that these depend on, themselves included. If a constructor's name is that of two types, both
        count, unless one is reached otherwise."""
        todo: List[List[Node]] = list(begin)
        unclear: List[List[Node]] = []
        found: Set[Node] = set()
        while todo or unclear:
            nodes = todo.pop() if todo else unclear.pop()
            if len(nodes) > 1 and todo:
                unclear.append(nodes)
            elif not (len(nodes) > 1 and found.intersection(nodes)):
                for node in nodes:
                    todo += [] if node in found else self.nodes_of(node)
                    found.add(node)
        return found
