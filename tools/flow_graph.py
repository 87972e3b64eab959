"""A flow graph of basic blocks, drawn as SVG, for tools/report: by Graphviz if `dot` is on the path, else by `ranked`.

`blocks` splits listed code into basic blocks. `by_dot` and `ranked` place them, and `drawn` draws what they placed. Only
sizes and numbers go to `dot`, so no text of a container reaches it.
"""
from __future__ import annotations

import re
import shutil
import subprocess
from html import escape
from typing import Dict, List, NamedTuple, Optional, Sequence, Set, Tuple

LETTER, LINE, PAD = 7.3, 16.0, 8.0  # pixels: a letter's width at 12 pixels, a line, the space around a block's text
TRACK, STUB, GAP = 7.0, 12.0, 28.0  # pixels: between two edges, at an edge's ends, between two blocks of a rank
MOST_LINES = 24  # lines of a block that are drawn; of a longer one the first and the last
DOT_SECONDS = 1.0  # after which `ranked` places the blocks
TARGET = re.compile(r" (?:.*,)?L(\d+)$")

Point = Tuple[float, float]


class Block(NamedTuple):
    """A basic block: the indices from `first` to `last`, and the numbers of the blocks that may follow."""

    first: int
    last: int
    lines: List[str]
    next: List[Tuple[int, str]]  # with "taken", "not taken" or ""
    is_cut: bool  # whether its first instruction has an invariant

    def width(self) -> float:
        return max(map(len, self.lines)) * LETTER + 2 * PAD

    def height(self) -> float:
        return len(self.lines) * LINE + 2 * PAD


class Edge(NamedTuple):
    """An edge as it is drawn: its points, and whether they are of Bezier curves."""

    kind: str
    is_back: bool
    is_curve: bool
    points: List[Point]


class Picture(NamedTuple):
    """Where blocks (by their upper left corners) and edges are."""

    width: float
    height: float
    corners: List[Point]
    edges: List[Edge]


def target_of(text: str, count: int) -> Optional[int]:
    """Returns the index that an instruction's text branches to, if the code has that index."""
    found = TARGET.search(text)
    return int(found.group(1)) if found and int(found.group(1)) < count else None


def followers(texts: Sequence[str], index: int) -> List[Tuple[int, str]]:
    """Returns the indices that may follow an index, each with its kind."""
    text, count = texts[index], len(texts)
    target = target_of(text, count)
    falls = [(index + 1, "" if target is None else "not taken")] if index + 1 < count else []
    if text.split(" ")[0] == "ret":
        return []
    if text.startswith("br "):
        return [] if target is None else [(target, "")]
    return falls if target is None else falls + [(target, "taken")]


def shown(texts: Sequence[str], first: int, last: int) -> List[str]:
    """Returns the lines of a block, at most MOST_LINES."""
    lines = ["%d %s" % (index, texts[index]) for index in range(first, last + 1)]
    half = MOST_LINES // 2
    if len(lines) <= MOST_LINES:
        return lines
    return lines[:half] + [".. %d more" % (len(lines) - 2 * half + 1)] + lines[1 - half:]


def blocks(texts: Sequence[str], cuts: Set[int]) -> List[Block]:
    """Returns the basic blocks of the code. An index of `cuts`, which has an invariant, begins one."""
    after = [followers(texts, index) for index in range(len(texts))]
    heads = {0} | cuts
    for index, them in enumerate(after):
        if [to for to, _ in them] != [index + 1]:
            heads.update(to for to, _ in them)
            heads.add(index + 1)
    firsts = sorted(index for index in heads if index < len(texts))
    number = {first: at for at, first in enumerate(firsts)}
    found = []
    for first, end in zip(firsts, firsts[1:] + [len(texts)]):
        following = [(number[to], kind) for to, kind in after[end - 1]]
        found.append(Block(first, end - 1, shown(texts, first, end - 1), following, first in cuts))
    return found


def back_edges(graph: Sequence[Block]) -> Tuple[Set[Tuple[int, int]], List[int]]:
    """Returns the edges that close a cycle in a depth-first search, and the blocks in topological order of the others."""
    state, back, finished = [0] * len(graph), set(), []
    for start in range(len(graph)):
        if state[start]:
            continue
        state[start] = 1
        stack = [(start, 0)]
        while stack:
            block, at = stack.pop()
            if at == len(graph[block].next):
                state[block] = 2
                finished.append(block)
                continue
            stack.append((block, at + 1))
            to = graph[block].next[at][0]
            if state[to] == 1:
                back.add((block, to))
            elif not state[to]:
                state[to] = 1
                stack.append((to, 0))
    return back, finished[::-1]


def ranks_of(graph: Sequence[Block], back: Set[Tuple[int, int]], order: Sequence[int]) -> List[List[int]]:
    """Returns the blocks by rank: the most edges from a block that none leads to, without the back edges."""
    rank = [0] * len(graph)
    for block in order:
        for to, _ in graph[block].next:
            if (block, to) not in back:
                rank[to] = max(rank[to], rank[block] + 1)
    rows: List[List[int]] = [[] for _ in range(max(rank) + 1)]
    for block, row in enumerate(rank):
        rows[row].append(block)
    return rows


class Lanes:
    """The vertical lanes at one side. Edges to one block share a lane, and a lane holds several that don't meet."""

    def __init__(self) -> None:
        self.spans: Dict[int, List[int]] = {}  # by the block that the edges lead to: the lowest and the highest gap

    def add(self, to: int, gaps: Tuple[int, int]) -> None:
        span = self.spans.setdefault(to, [min(gaps), max(gaps)])
        span[0], span[1] = min(span[0], *gaps), max(span[1], *gaps)

    def numbers(self) -> Dict[int, int]:
        """Returns a number for each block's lane, the shortest lanes first."""
        lanes: List[List[List[int]]] = []
        found = {}
        for to, span in sorted(self.spans.items(), key=lambda it: it[1][1] - it[1][0]):
            free = (at for at, held in enumerate(lanes) if all(span[1] < it[0] or it[1] < span[0] for it in held))
            at = next(free, len(lanes))
            if at == len(lanes):
                lanes.append([])
            lanes[at].append(span)
            found[to] = at
        return found


class Ranked:
    """A layout in rows. Gap r is above row r; edges run in gaps and in lanes at the sides, so none crosses a block."""

    def __init__(self, graph: Sequence[Block]) -> None:
        self.graph = graph
        self.back, order = back_edges(graph)
        self.rows = ranks_of(graph, self.back, order)
        self.row = {block: at for at, row in enumerate(self.rows) for block in row}
        self.tracks: List[Dict[Tuple[str, int], int]] = [{} for _ in range(len(self.rows) + 1)]
        self.left, self.right = Lanes(), Lanes()
        for block, it in enumerate(graph):
            for to, _ in it.next:
                self.take(block, to)

    def side(self, block: int, to: int) -> Optional[Lanes]:
        """Returns the lanes that an edge uses: none if it leads to the next row."""
        if (block, to) in self.back:
            return self.left
        return self.right if self.row[to] > self.row[block] + 1 else None

    def take(self, block: int, to: int) -> None:
        """Takes the tracks of an edge: one in the gap below its block, one in the gap above the block it leads to."""
        below, above, side = self.row[block] + 1, self.row[to], self.side(block, to)
        if side is None:
            self.track(above, "in", to)
            return
        side.add(to, (below, above))
        self.track(below, "out left" if side is self.left else "out right", block)
        self.track(above, "back in" if side is self.left else "far in", to)

    def track(self, gap: int, use: str, block: int) -> int:
        return self.tracks[gap].setdefault((use, block), len(self.tracks[gap]))

    def placed(self) -> Picture:
        """Returns the picture."""
        graph = self.graph
        self.left_lanes, self.right_lanes = self.left.numbers(), self.right.numbers()
        lefts, rights = (max(it.values(), default=-1) + 1 for it in (self.left_lanes, self.right_lanes))
        widths = [sum(graph[it].width() for it in row) + GAP * (len(row) - 1) for row in self.rows]
        self.x = PAD + lefts * TRACK + STUB
        self.end = self.x + max(widths)
        self.corner: Dict[int, Point] = {}
        self.gap_y, y = [], PAD
        for row, width, tracks in zip(self.rows, widths, self.tracks):
            self.gap_y.append(y)
            y += 2 * STUB + len(tracks) * TRACK
            x = self.x + (max(widths) - width) / 2
            for block in row:
                self.corner[block] = (x, y)
                x += graph[block].width() + GAP
            y += max(graph[it].height() for it in row)
        self.gap_y.append(y)
        height = y + 2 * STUB + len(self.tracks[-1]) * TRACK
        edges = [self.edge(block, to, kind) for block, it in enumerate(graph) for to, kind in it.next]
        corners = [self.corner[block] for block in range(len(graph))]
        return Picture(self.end + STUB + rights * TRACK + PAD, height, corners, edges)

    def port(self, block: int, share: float) -> float:
        return self.corner[block][0] + self.graph[block].width() * share

    def track_y(self, gap: int, use: str, block: int) -> float:
        return self.gap_y[gap] + STUB + self.track(gap, use, block) * TRACK

    def edge(self, block: int, to: int, kind: str) -> Edge:
        below, above, side = self.row[block] + 1, self.row[to], self.side(block, to)
        start_y = self.corner[block][1] + self.graph[block].height()
        end_y = self.corner[to][1]
        if side is None:
            x, end = self.port(block, 0.65 if kind == "taken" else 0.5), self.port(to, 0.5)
            y = self.track_y(above, "in", to)
            return Edge(kind, False, False, [(x, start_y), (x, y), (end, y), (end, end_y)])
        is_left = side is self.left
        x, end = self.port(block, 0.2 if is_left else 0.85), self.port(to, 0.25 if is_left else 0.75)
        y = self.track_y(below, "out left" if is_left else "out right", block)
        last = self.track_y(above, "back in" if is_left else "far in", to)
        if is_left:
            lane = self.x - STUB - self.left_lanes[to] * TRACK
        else:
            lane = self.end + STUB + self.right_lanes[to] * TRACK
        points = [(x, start_y), (x, y), (lane, y), (lane, last), (end, last), (end, end_y)]
        return Edge(kind, is_left, False, points)


def ranked(graph: Sequence[Block]) -> Picture:
    """Returns a picture without Graphviz: ranks by distance from the start, back edges at the left side."""
    return Ranked(graph).placed()


def dot_text(graph: Sequence[Block]) -> str:
    """Returns the graph for `dot`: sizes in inches, 72 pixels each."""
    lines = ["digraph {", "node [shape=box fixedsize=true label=\"\"]", "edge [arrowhead=none]"]
    for number, block in enumerate(graph):
        lines.append("n%d [width=%.3f height=%.3f]" % (number, block.width() / 72, block.height() / 72))
        lines += ["n%d -> n%d" % (number, to) for to in dict.fromkeys(to for to, _ in block.next)]
    return "\n".join(lines + ["}"])


def by_dot(graph: Sequence[Block]) -> Optional[Picture]:
    """Returns a picture by Graphviz, or None if there is no `dot`, it fails, or it takes longer than DOT_SECONDS."""
    dot = shutil.which("dot")
    if dot is None:
        return None
    try:
        done = subprocess.run([dot, "-Tplain"], input=dot_text(graph), stdout=subprocess.PIPE,
                              stderr=subprocess.DEVNULL, universal_newlines=True, timeout=DOT_SECONDS)
    except (OSError, subprocess.TimeoutExpired):
        return None
    return of_plain(graph, done.stdout) if done.returncode == 0 else None


def of_plain(graph: Sequence[Block], text: str) -> Picture:
    """Returns the picture that the lines of `dot -Tplain` give. They have inches, and y upwards."""
    width = height = 0.0
    corners: List[Point] = [(0.0, 0.0)] * len(graph)
    edges: List[Edge] = []
    back = back_edges(graph)[0]
    for line in text.replace("\\\n", "").splitlines():
        words = line.split()
        if words[0] == "graph":
            width, height = float(words[2]) * 72, float(words[3]) * 72
        elif words[0] == "node":
            at = int(words[1][1:])
            x, y = float(words[2]) * 72, height - float(words[3]) * 72
            corners[at] = (PAD + x - graph[at].width() / 2, PAD + y - graph[at].height() / 2)
        elif words[0] == "edge":
            block, to, count = int(words[1][1:]), int(words[2][1:]), int(words[3])
            numbers = [float(it) * 72 for it in words[4:4 + 2 * count]]
            points = [(PAD + x, PAD + height - y) for x, y in zip(numbers[::2], numbers[1::2])]
            kinds = [kind for it, kind in graph[block].next if it == to]
            edges.append(Edge(kinds[0], (block, to) in back, True, points))
    return Picture(width + 2 * PAD, height + 2 * PAD, corners, edges)


def drawn_edge(edge: Edge) -> str:
    spots = ["%.1f %.1f" % point for point in edge.points]
    way = "M" + spots[0] + (" C " if edge.is_curve else " L ") + " ".join(spots[1:])
    classes = " ".join(it for it in ("edge", edge.kind.replace(" ", "-"), "back" if edge.is_back else "") if it)
    return '<path class="%s" d="%s" marker-end="url(#arrow)"/>' % (classes, way)


def drawn_block(block: Block, corner: Point, marks: Dict[int, str]) -> str:
    """Returns a block's box. `marks` has the class of a block by its first index, such as `missing`."""
    x, y = corner
    classes = " ".join(it for it in ("block", "cut" if block.is_cut else "", marks.get(block.first, "")) if it)
    lines = ['<a href="#i%d"><g class="%s">' % (block.first, classes),
             '<rect x="%.1f" y="%.1f" width="%.1f" height="%.1f" rx="3"/>' % (x, y, block.width(), block.height())]
    for at, text in enumerate(block.lines):
        down = y + PAD + at * LINE + 12
        lines.append('<text x="%.1f" y="%.1f">%s</text>' % (x + PAD, down, escape(text)))
    return "\n".join(lines + ["</g></a>"])


def drawn(graph: Sequence[Block], picture: Picture, marks: Dict[int, str]) -> str:
    """Returns the picture as an SVG element."""
    size = 'width="%.0f" height="%.0f" viewBox="0 0 %.0f %.0f"' % ((picture.width, picture.height) * 2)
    parts = ['<svg xmlns="http://www.w3.org/2000/svg" %s>' % size, "<title>Flow graph</title>",
             '<defs><marker id="arrow" viewBox="0 0 8 8" refX="8" refY="4" markerWidth="8" markerHeight="8" '
             'orient="auto"><path d="M0 0 L8 4 L0 8 z"/></marker></defs>']
    parts += map(drawn_edge, picture.edges)
    parts += [drawn_block(block, corner, marks) for block, corner in zip(graph, picture.corners)]
    return "\n".join(parts + ["</svg>"])
