"""Terms and containers for the benchmarks: shared terms by number, and the bytes of a container.

A term is a number in `Terms`. Nothing of the program is used; the formats are those of
docs/FORMATS.md.
"""
import struct

VAR, CONST, LIT, CALC, FACT, DENY, APP, LAM, LEMMA = range(9)
(ADD, SUB, BAND, BIS, SLL, SRL, CMPEQ, CMPLT, CMPLE, CMPULT, CMPULE, SEL, UPD, TT, FF, EQ, ULT, ULE, SLT, SLE, RD, WR,
 AND, OR, IMP, ALL, ALLM) = range(27)
(TT_I, FF_E, AND_I, AND_L, AND_R, OR_L, OR_R, OR_E, IMP_I, IMP_E, EM, ALL_I, ALL_E, ALLM_I, ALLM_E, EQ_REFL,
 EQ_SUB) = range(27, 44)
XOR, BIC, XOR_SELF = 88, 89, 96
FILTER, TAG, TABLE = 1, 2, 3
RETURN, RETURN_1 = 0x6BFA8001, 0x201F0001
GROUP = 500


class Terms:
    def __init__(self):
        self.nodes, self.numbers = [], {}

    def node(self, *node):
        number = self.numbers.get(node)
        if number is None:
            number = self.numbers[node] = len(self.nodes)
            self.nodes.append(node)
        return number

    def var(self, number):
        return self.node(VAR, number)

    def lit(self, word):
        return self.node(LIT, word)

    def lam(self, body, times=1):
        for _ in range(times):
            body = self.node(LAM, body)
        return body

    def con(self, constant, *arguments):
        applied = self.node(CONST, constant)
        for argument in arguments:
            applied = self.node(APP, applied, argument)
        return applied

    def lowered(self, term):
        """The term with each free variable lowered by one; parts are gone through once a depth."""
        known, todo = {}, [(term, 0)]
        while todo:
            place = todo[-1]
            t, depth = place
            node = self.nodes[t]
            parts = [] if node[0] not in (APP, LAM) else [(p, depth + (node[0] == LAM)) for p in node[1:]]
            missing = [p for p in parts if p not in known]
            if missing:
                todo += missing
                continue
            todo.pop()
            if node[0] == VAR:
                known[place] = self.var(node[1] - (node[1] >= depth))
            elif parts:
                known[place] = self.node(node[0], *[known[p] for p in parts])
            else:
                known[place] = t
        return known[(term, 0)]


def postorder(terms, roots):
    """The terms below the roots, parts first, each once; and their numbers."""
    order, numbers = [], {}
    for root in roots:
        todo = [root]
        while todo:
            t = todo[-1]
            if t in numbers:
                todo.pop()
                continue
            node = terms.nodes[t]
            parts = node[1:] if node[0] in (APP, LAM) else ()
            missing = [p for p in parts if p not in numbers]
            if missing:
                todo.append(missing[0])
                continue
            todo.pop()
            numbers[t] = len(order)
            order.append(t)
    return order, numbers


def height(terms, root):
    """The height of a term."""
    heights = {}
    for t in postorder(terms, [root])[0]:
        node = terms.nodes[t]
        heights[t] = 1 + max([heights[p] for p in node[1:]] if node[0] in (APP, LAM) else [0])
    return heights[root]


def entry_fields(node, numbers):
    kind = node[0]
    if kind in (APP, LAM):
        return [kind] + [numbers[p] for p in node[1:]]
    if kind in (VAR, CONST, LEMMA):
        return [kind, node[1]]
    words = node[1:] if kind == LIT else node[2:]
    return [kind] + ([] if kind == LIT else [node[1]]) + [half for w in words for half in (w & 0xFFFFFFFF, w >> 32)]


def container(terms, policy, code, invariants=(), proof=None, lemmas=None):
    """The bytes of a container of version 1: invariants are pairs of an index and a term.

    With lemmas, pairs of a formula and a proof, it has their field too, as version 4 does.
    """
    roots = [t for _, t in invariants] + [t for lemma in lemmas or () for t in lemma] + ([] if proof is None else [proof])
    order, numbers = postorder(terms, roots)
    fields = [0x41434350, 1, policy, len(code), *code, len(order)]
    for t in order:
        fields += entry_fields(terms.nodes[t], numbers)
    fields.append(len(invariants))
    for index, t in invariants:
        fields += [index, numbers[t]]
    if lemmas is not None:
        fields.append(len(lemmas))
        fields += [numbers[t] for lemma in lemmas for t in lemma]
    fields.append(0 if proof is None else 1 + numbers[proof])
    return struct.pack("<%dI" % len(fields), *fields)


def entries_of(first):
    """How many entries a container of version 1 has."""
    return struct.unpack_from("<I", first, 16 + 4 * struct.unpack_from("<I", first, 12)[0])[0]


DIGESTS = {
    "filter": bytes.fromhex("776f42a48720f4e2ffa048057c9c305639cfb455b869f440f94acbd6633c9fd6"),
    "tag": bytes.fromhex("3b028340152631c224d07049125343e99e3f6be3cf4d2f0931e14aeef88ab835"),
    "table": bytes.fromhex("40d20cb4fd5a11d62db92b4927210cacb82f6fe4c6343a032ceab66436ae3c51"),
}


def in_version_2(first, digest):
    """The same container in version 2: the digest of the policy's text stands in place of its number."""
    return first[:4] + struct.pack("<I", 2) + digest + first[12:]


def in_version_3(first, digest, bound):
    """The same in version 3: behind the digest stands the bound of its steps."""
    return first[:4] + struct.pack("<I", 3) + digest + struct.pack("<I", bound) + first[12:]


def in_version_4(first, digest):
    """The same in version 4, of one that was made with lemmas."""
    return first[:4] + struct.pack("<I", 4) + digest + first[12:]


# ---- a proof of the condition of `ret` under the policy tag, with room for any proof of `tt`

def tag_precondition(t):
    """The precondition of tag over m and r0 to r30."""
    first = t.con(ADD, t.var(14), t.lit(0))
    second = t.con(ADD, t.var(14), t.lit(8))
    zero = t.con(EQ, t.con(SEL, t.var(31), first), t.lit(0))
    nonzero = t.con(IMP, zero, t.con(FF))
    return t.con(AND, t.con(RD, first), t.con(AND, t.con(RD, second), t.con(IMP, nonzero, t.con(WR, second))))


def closed(t, formula, proof):
    """The formula for all words and memories, and its proof."""
    for _ in range(31):
        over, under = t.lam(formula), t.lam(proof)
        formula, proof = t.con(ALL, over), t.con(ALL_I, over, under)
    over, under = t.lam(formula), t.lam(proof)
    return t.con(ALLM, over), t.con(ALLM_I, over, under)


def returning(t, truth=None):
    """The proof of the condition, and how it ends: by this proof of `tt`."""
    tt, tt_i = t.con(TT), t.con(TT_I)
    pre = tag_precondition(t)
    part, proof = closed(t, t.con(IMP, pre, tt), t.con(IMP_I, pre, tt, t.lam(tt_i)))
    return t.con(AND_I, part, tt, proof, tt_i if truth is None else truth)


def returning_container(t, truth=None):
    return container(t, TAG, [RETURN], (), returning(t, truth))


# ---- proofs of `tt`

def weight(t, term, places=None):
    """The weight of a proof, parameters counting 1 each."""
    parameters = {AND_I: 2, AND_L: 2, IMP_I: 2, IMP_E: 2, ALL_I: 1, ALLM_I: 1, EQ_REFL: 1, EQ_SUB: 3, ALL_E: 2}
    known, todo = {}, [term]
    while todo:
        here = todo[-1]
        node, spine = t.nodes[here], []
        head = here
        while t.nodes[head][0] == APP:
            spine.append(t.nodes[head][2])
            head = t.nodes[head][1]
        spine.reverse()
        left = parameters.get(t.nodes[head][1], 0) if t.nodes[head][0] == CONST else 0
        parts = [node[1]] if node[0] == LAM else spine[left:]
        missing = [p for p in parts if p not in known]
        if missing:
            todo += missing
            continue
        todo.pop()
        known[here] = 1 + sum(known[p] for p in parts) + (min(left, len(spine)) if node[0] != LAM else 0)
    return known[term]


def padded(t, total):
    """A proof of `tt` of this weight: 1, or one that steps of 7 and 8 and doublings reach."""
    tt, tt_i = t.con(TT), t.con(TT_I)

    def both(p, q):  # weight: both and 6
        return t.con(AND_L, tt, tt, t.con(AND_I, tt, tt, p, q))

    def cut(p):  # weight: 8 more
        return t.con(IMP_E, tt, tt, t.con(IMP_I, tt, tt, t.lam(p)), tt_i)

    if total == 1:
        return tt_i
    if total < 200:
        for eights in range(total // 8 + 1):
            if (total - 1 - 8 * eights) % 7 == 0 and total - 1 - 8 * eights >= 0:
                proof = tt_i
                for _ in range(eights):
                    proof = cut(proof)
                for _ in range((total - 1 - 8 * eights) // 7):
                    proof = both(proof, tt_i)
                return proof
    if total % 2 == 0:
        half = padded(t, (total - 6) // 2)
        return both(half, half)
    return both(padded(t, total - 7), tt_i)


def sixty_times(t):
    """Sixty times `and_l A A (and_i A A p p)` by sharing."""
    tt, proof = t.con(TT), t.con(TT_I)
    for _ in range(60):
        proof = t.con(AND_L, tt, tt, t.con(AND_I, tt, tt, proof, proof))
    return proof


def instead(t, formula, proof):
    """A proof of `tt` by way of that of another closed formula."""
    tt = t.con(TT)
    return t.con(IMP_E, formula, tt, t.con(IMP_I, formula, tt, t.lam(t.con(TT_I))), proof)


def conjunction(t, proved):
    """The balanced conjunction of proofs with their formulas."""
    while len(proved) > 1:
        pairs = []
        for k in range(0, len(proved) - 1, 2):
            (a, p), (b, q) = proved[k], proved[k + 1]
            pairs.append((t.con(AND, a, b), t.con(AND_I, a, b, p, q)))
        proved = pairs + proved[len(proved) & ~1:]
    return proved[0]


def reflexive(t, word):
    return t.con(EQ, word, word), t.con(EQ_REFL, word)


def both_of(t, one, other):
    return t.con(AND, one[0], other[0]), t.con(AND_I, one[0], other[0], one[1], other[1])


def grown(t, word, parts):
    for k in range(parts):
        word = t.con(ADD, t.lit(k + (1 << 40)), word)
    return word


def all_equal(t):
    return t.con(ALL, t.lam(t.con(ALL, t.lam(t.con(EQ, t.var(1), t.var(0))))))


def contexts(t, parts, count):
    """An open word of so many parts under so many hypotheses that differ."""
    inner, outer = reflexive(t, grown(t, t.var(2), parts)), reflexive(t, grown(t, t.var(1), parts))
    whole = group = outer
    for k in range(count):
        held = t.con(EQ, t.lit(k), t.lit(k))
        step = t.con(IMP, held, outer[0]), t.con(IMP_I, held, outer[0], t.lam(inner[1]))
        group = both_of(t, step, group)
        if k % GROUP == GROUP - 1:
            whole, group = both_of(t, group, whole), outer
    return both_of(t, group, whole)


def equality(t, a, b):
    outer = t.lam(t.con(ALL, t.lam(t.con(EQ, t.var(1), t.var(0)))))
    first = t.con(ALL_E, outer, a, t.var(0))
    return t.con(ALL_E, t.lam(t.con(EQ, a, t.var(0))), b, first)


def steps(t, parts, first, count):
    over = t.lam(reflexive(t, grown(t, t.var(0), parts))[0])
    a = t.lit(first)
    proof = t.con(EQ_REFL, grown(t, a, parts))
    for k in range(count):
        b = t.lit(first + k + 1)
        proof = t.con(EQ_SUB, over, a, b, equality(t, a, b), proof)
        a = b
    return reflexive(t, grown(t, a, parts))[0], proof


def instances(t, parts, count):
    """So many instances of a predicate of so many parts, by steps from word to word."""
    whole = steps(t, parts, 0, count % GROUP)
    for run in range(count // GROUP):
        whole = both_of(t, steps(t, parts, (run + 1) * GROUP, GROUP), whole)
    return whole


def under_equality(t, proved):
    """A closed proof of `tt` by way of one over a word and the hypothesis that all words are equal."""
    formula, proof = proved
    held = all_equal(t)
    over = t.lam(t.con(IMP, held, t.lowered(formula)))
    under = t.lam(t.con(IMP_I, held, t.lowered(formula), t.lam(proof)))
    return instead(t, t.con(ALL, over), t.con(ALL_I, over, under))
