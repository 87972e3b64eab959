"""The families of bench/hostile.sh: files that are made to take a program long."""
import os, subprocess, sys
sys.path.insert(0, os.path.dirname(os.path.abspath(__file__)))
from runs import run
from terms import *

LOOP = 0xC3FFFFFF  # br to itself
CHANGED = list(range(1, 9))  # registers that code may write
MOST = {"check": (2.0, 512), "native": (2.0, 512), "prove": (5.0, 1024), "auto": (10.0, 1024)}  # seconds, megabytes


def both_ways(t, formula):
    """The formula under a word that isn't used, and under a memory that isn't."""
    return t.con(IMP, t.con(ALL, t.lam(formula)), t.con(ALLM, t.lam(formula)))


def levels(t, count):
    """So many levels over one free word, whose number falls by one a level."""
    word = t.var(14 + count)
    formula = t.con(EQ, word, word)
    for _ in range(count):
        formula = both_ways(t, formula)
    return formula


def levels_used(t, count):
    """The same, where each binder's variable is used beside."""
    word = t.var(14 + count)
    formula = t.con(EQ, word, word)
    for _ in range(count):
        of_word = t.con(AND, formula, t.con(EQ, t.var(0), t.lit(0)))
        of_memory = t.con(AND, formula, t.con(EQ, t.con(SEL, t.var(0), t.lit(0)), t.lit(0)))
        formula = t.con(IMP, t.con(ALL, t.lam(of_word)), t.con(ALLM, t.lam(of_memory)))
    return formula


def levels_between(t, count):
    """A variable that isn't used behind each that is used."""
    formula = t.con(TT)
    for k in range(count):
        formula = t.con(AND, formula, t.con(EQ, t.var(2 * k), t.lit(k)))
    for _ in range(count):
        inner = t.con(ALL, t.lam(formula))
        formula = t.con(IMP, t.con(ALL, t.lam(inner)), t.con(ALLM, t.lam(inner)))
    return formula


def disjoined(t, formula):
    """A closed proof of `tt` by way of `formula or tt`."""
    tt, tt_i = t.con(TT), t.con(TT_I)
    return instead(t, t.con(OR, formula, tt), t.con(OR_R, formula, tt, tt_i))


def levels_closed(t, count):
    """The same over a word that a quantifier brings."""
    word = t.var(count)
    formula = t.con(EQ, word, word)
    for _ in range(count):
        formula = both_ways(t, formula)
    return t.con(ALL, t.lam(formula))


def by_cases(t, count):
    """Proofs by cases of whether a fact holds or not, one in both cases of the next."""
    proof = t.con(TT_I)
    tt = t.con(TT)
    for k in range(count):
        held = t.con(EQ, t.lit(k), t.lit(k))
        denied = t.con(IMP, held, t.con(FF))
        proof = t.con(OR_E, held, denied, tt, t.con(EM, held), t.lam(proof), t.lam(proof))
    return proof


def by_cases_under(t, count):
    """The same under one word, which what is at the end speaks of."""
    word = t.var(count)
    said = lambda depth: t.con(EQ, t.var(depth), t.var(depth))
    proof = t.con(EQ_REFL, word)
    for k in range(count):
        held = t.con(EQ, t.lit(k), t.lit(k))
        denied = t.con(IMP, held, t.con(FF))
        depth = count - 1 - k
        proof = t.con(OR_E, held, denied, said(depth), t.con(EM, held), t.lam(proof), t.lam(proof))
    over = t.lam(said(0))
    return instead(t, t.con(ALL, over), t.con(ALL_I, over, t.lam(proof)))


def balanced(t, leaf, low, high):
    if high - low == 1:
        return leaf(low)
    middle = (low + high) // 2
    return t.con(AND, balanced(t, leaf, low, middle), balanced(t, leaf, middle, high))


def rights(t, count):
    """That so many rights to load lead to the same rights, in the other order: for `prove`."""
    rights = [t.con(RD, t.con(ADD, t.var(30 - 1), t.lit(8 * k))) for k in range(count)]
    under, over = rights[0], rights[-1]
    for k in range(1, count):
        under, over = t.con(AND, rights[k], under), t.con(AND, rights[-1 - k], over)
    return t.con(IMP, under, over)


def far_apart(t, count, leaves):
    """Formulas of a far variable under two contexts that differ at the outermost of many binders."""
    one = balanced(t, lambda k: t.con(EQ, t.var(count + 1 + 14), t.lit(k)), 0, leaves)
    other = balanced(t, lambda k: t.con(EQ, t.var(count + 1 + 14), t.lit(leaves - 1 - k)), 0, leaves)
    for _ in range(count):
        one, other = t.con(ALL, t.lam(one)), t.con(ALL, t.lam(other))
    return t.con(AND, t.con(ALL, t.lam(one)), t.con(ALLM, t.lam(other)))


def mixed(t, count):
    """A formula whose parts use up to so many variables, in two contexts."""
    formula = t.con(TT)
    for k in range(count):
        formula = t.con(AND, formula, t.con(EQ, t.var(count - 1 - k), t.lit(k)))
    formula = t.con(AND, formula, t.con(EQ, t.var(count + 1 + 14), t.lit(0)))
    for _ in range(count):
        formula = t.con(ALL, t.lam(formula))
    return t.con(IMP, t.con(ALL, t.lam(formula)), t.con(ALLM, t.lam(formula)))


def addq(a, literal, c):
    return 0x10 << 26 | a << 21 | (literal & 255) << 13 | 1 << 12 | 0x20 << 5 | c


def beq(a, displacement):
    return 0x39 << 26 | a << 21 | displacement & 0x1FFFFF


def changing(ways):
    """Code of 2^ways ways that change registers, up to a loop at its last index, which is annotated."""
    words = []
    for k in range(ways):
        words += [beq(16, 1), addq(CHANGED[k % 8], k + 1, CHANGED[k % 8])]
    return words + [LOOP], len(words)


def all_over(t, register, leaves, depth=0, put=None):
    """So many leaves over a register, or tt, as a formula that `or_r` proves; under so many hypotheses."""
    word = t.var(30 - register + depth) if put is None else t.con(ADD, t.lit(0), t.lit(put))
    return t.con(OR, balanced(t, lambda k: t.con(EQ, word, t.lit(k)), 0, leaves), t.con(TT))


def by_right(t, formula):
    """The proof of such a formula."""
    return t.con(OR_R, t.nodes[t.nodes[formula][1]][2], t.con(TT), t.con(TT_I))


def annotated(t, step, count, before, after, proof, at_start):
    """Code of one instruction so many times, or of a list of them, each with one invariant, and a
    return; and the proof that it gives: of `after`, what the invariant is behind the instruction, under
    the invariant, and of the invariant at the start."""
    tt, tt_i, pre = t.con(TT), t.con(TT_I), tag_precondition(t)
    goal, whole = tt, tt_i
    last = closed(t, t.con(IMP, before, tt), t.con(IMP_I, before, tt, t.lam(tt_i)))
    each = closed(t, t.con(IMP, before, after), t.con(IMP_I, before, after, t.lam(proof)))
    first = closed(t, t.con(IMP, pre, before), t.con(IMP_I, pre, before, t.lam(at_start)))
    for part in [last] + [each] * (count - 1) + [first]:
        goal, whole = t.con(AND, part[0], goal), t.con(AND_I, part[0], goal, part[1], whole)
    steps = step if isinstance(step, list) else [step] * count
    return container(t, TAG, steps + [RETURN], [(k, before) for k in range(count)], whole)


def unchanged(t, count, leaves):
    """Each instruction changes r1, and the invariant speaks of r5."""
    kept = all_over(t, 5, leaves)
    return annotated(t, addq(1, 1, 1), count, kept, kept, t.var(0), by_right(t, all_over(t, 5, leaves, 1)))


def same_again(t, count, leaves):
    """Each instruction sets r1 to 5, and the invariant speaks of it."""
    before, after = all_over(t, 1, leaves), all_over(t, 1, leaves, put=5)
    return annotated(t, 0x08 << 26 | 1 << 21 | 31 << 16 | 5, count, before, after, by_right(t, after), by_right(t, all_over(t, 1, leaves, 1)))


def other_numbers(t, count, leaves):
    """Each instruction sets r1 to another number, and the invariant speaks of r5."""
    kept = all_over(t, 5, leaves)
    steps = [0x08 << 26 | 1 << 21 | 31 << 16 | k for k in range(count)]
    return annotated(t, steps, count, kept, kept, t.var(0), by_right(t, all_over(t, 5, leaves, 1)))


def at_depths(t, leaves, depths, far):
    """A formula of one far variable under each count of binders up to so many, in a parameter that is
    raised: each part is asked for once a count, and few trees are made."""
    forms = [balanced(t, lambda k: t.con(EQ, t.var(far), t.lit(k)), 0, leaves)]
    for _ in range(1, depths):
        forms.append(t.con(ALL, t.lam(forms[-1])))
    whole = joined(t, forms)
    formula, proof = t.con(OR, whole, t.con(TT)), t.con(OR_R, whole, t.con(TT), t.con(TT_I))
    for _ in range(far + 1):
        over, under = t.lam(formula), t.lam(proof)
        formula, proof = t.con(ALL, over), t.con(ALL_I, over, under)
    return returning_container(t, instead(t, formula, proof))


def families():
    for k in (18, 22, 200, 1000):
        t = Terms()
        yield "a, invariant, %d levels" % k, "filter", container(t, FILTER, [LOOP], [(0, levels(t, k))]), "refused 9 NoProof"
    for k in (18, 200):
        t = Terms()
        yield "a, each binder used, %d levels" % k, "filter", container(t, FILTER, [LOOP], [(0, levels_used(t, k))]), "refused 9 NoProof"
    for k in (16, 60):
        t = Terms()
        yield "a, unused between used, %d levels" % k, "filter", container(t, FILTER, [LOOP], [(0, levels_between(t, k))]), "refused 9 NoProof"
    for k in (18, 22, 200, 1000):
        t = Terms()
        yield "a, parameter of or_r, %d levels" % k, "tag", returning_container(t, disjoined(t, levels_closed(t, k))), "accepted"
    t = Terms()
    words, end = changing(11)
    wide = balanced(t, lambda k: t.con(EQ, t.var(30 - CHANGED[k % 8]), t.lit(k)), 0, 2500)
    yield "b, 2,500 leaves, 2^11 ways", "filter", container(t, FILTER, words, [(end, wide)], t.con(TT_I)), "refused 11 NotProof"
    t = Terms()
    wide = balanced(t, lambda k: t.con(EQ, t.var(30 - 1), t.lit(k)), 0, 50000)
    many = [addq(1, 1, 1)] * 256
    yield "b, 255 invariants, 50,000 leaves", "filter", container(t, FILTER, many + [RETURN_1, RETURN], [(k, wide) for k in range(255)], t.con(TT_I)), "refused 11 NotProof"
    t = Terms()
    wide = balanced(t, lambda k: t.con(EQ, t.var(30 - 5), t.lit(k)), 0, 50000)
    yield "b, .. of another register", "filter", container(t, FILTER, many + [RETURN_1, RETURN], [(k, wide) for k in range(255)], t.con(TT_I)), "refused 11 NotProof"
    for count, leaves in ((16, 100), (250, 20000)):
        t = Terms()
        yield "n, %d invariants of %d leaves, unchanged, proved" % (count, leaves), "tag", unchanged(t, count, leaves), "accepted"
        t = Terms()
        yield "n, %d of a register that is set to 5, proved" % count, "tag", same_again(t, count, leaves), "accepted"
        t = Terms()
        yield "n, %d beside another number each, proved" % count, "tag", other_numbers(t, count, leaves), "accepted"
    for k in (10, 15):
        t = Terms()
        yield "c, cases, %d levels" % k, "tag", returning_container(t, by_cases(t, k)), "accepted"
        t = Terms()
        yield "c, of a word, %d levels" % k, "tag", returning_container(t, by_cases_under(t, k)), "accepted"
    t = Terms()
    yield "d, 500 rights by hypotheses", "filter", container(t, FILTER, [LOOP], [(0, rights(t, 500))]), "prove"
    for parts, count in [(40, 14500), (3000, 14500)]:
        t = Terms()
        data = returning_container(t, under_equality(t, contexts(t, parts, count)))
        yield "e, a word of %d parts under %d hypotheses" % (parts, count), "tag", data, "accepted"
    for parts, count in [(20, 14000), (3000, 12000)]:
        t = Terms()
        data = returning_container(t, under_equality(t, instances(t, parts, count)))
        yield "e, %d instances of %d parts" % (count, parts), "tag", data, "accepted" if parts < 100 else "status 5"
    for count, leaves in ((900, 10000), (900, 40000)):
        t = Terms()
        name = "f, %d formulas, %d binders apart" % (leaves, count)
        yield name, "filter", container(t, FILTER, [LOOP], [(0, far_apart(t, count, leaves))]), "refused 9 NoProof"
    for leaves, depths in ((20000, 60), (40000, 30)):
        t = Terms()
        name = "o, %d formulas at %d depths" % (leaves, depths)
        yield name, "tag", at_depths(t, leaves, depths, 200), "status 5"
    for count in (300, 900):
        t = Terms()
        name = "g, %d variables, in two contexts" % count
        yield name, "filter", container(t, FILTER, [LOOP], [(0, mixed(t, count))]), "refused 9 NoProof"


# ---- for `prove`: the invariant of a loop

def word(t, register):
    return t.var(30 - register)


def joined(t, forms):
    """The balanced conjunction."""
    while len(forms) > 1:
        pairs = [t.con(AND, a, b) for a, b in zip(forms[::2], forms[1::2])]
        forms = pairs + forms[len(pairs) * 2:]
    return forms[0]


def summed(t, leaves):
    """The sum of the leaves, nested to the left."""
    whole = leaves[0]
    for leaf in leaves[1:]:
        whole = t.con(ADD, whole, leaf)
    return whole


def equal_sums(t, leaves, count):
    """So many equations of sums of so many leaves, in the worst order, with the same in another order."""
    forms = []
    for k in range(count):
        registers = sorted(((7 * i + k) % 31 for i in range(leaves - 2)), reverse=True)
        parts = [t.con(SLL, word(t, k % 31), t.lit(k))] + [word(t, r) for r in registers]
        forms.append(t.con(EQ, summed(t, parts), summed(t, parts[1:] + parts[:1])))
    return joined(t, forms)


def implications(t, depth, parts):
    """Implications so deep, each of so many bounds of sums."""
    formula = t.con(TT)
    for k in range(depth):
        sums = [t.con(ADD, word(t, 1 + i % 20), t.lit(1000 * i + k)) for i in range(parts)]
        formula = t.con(IMP, joined(t, [t.con(ULE, a, t.lit(5)) for a in sums]), formula)
    return formula


def asked_of(t, given, asked):
    """That what is given leads to each that is asked, or else to what is true."""
    return t.con(IMP, joined(t, given), joined(t, [t.con(OR, form, t.con(TT)) for form in asked]))


def rights_asked(t, count):
    """Rights to load by one register, asked for by another."""
    at = lambda register, k: t.con(RD, t.con(ADD, word(t, register), t.lit(8 * k)))
    return asked_of(t, [at(1, k) for k in range(count)], [at(2, k) for k in range(count)])


def bounds_asked(t, hyps, goals):
    """Bounds of sums with one register, asked for of sums with another."""
    at = lambda register, k, most: t.con(ULE, t.con(ADD, word(t, register), t.lit(k)), t.lit(most))
    return asked_of(t, [at(1, k, 9) for k in range(hyps)], [at(2, k, 6) for k in range(goals)])


def bounds_of_one(t, hyps):
    """Bounds of one register, from the first on each a better one, and one that is asked for."""
    given = [t.con(ULE, word(t, 1), t.lit(hyps + k)) for k in range(hyps)]
    return asked_of(t, given, [t.con(ULE, t.con(ADD, word(t, 1), t.lit(1)), t.lit(6))])


def both_sides(t, levels, formula):
    """Disjunctions whose sides bring a hypothesis each: as many contexts as ways, and no proof."""
    for k in range(levels):
        formula = t.con(OR, *[t.con(IMP, t.con(ULE, t.lit(k), word(t, r)), formula) for r in (2, 3)])
    return t.con(OR, formula, t.con(TT))


def below(t, levels):
    """The same of a word."""
    return both_sides(t, levels, t.con(ULT, word(t, 1), t.lit(0)))


def sums_below(t, levels, parts):
    """The same of a sum of so many parts, each of which has a bound."""
    sums = [t.con(BAND, word(t, 4 + k % 20), t.lit(1 + k)) for k in range(parts)]
    return both_sides(t, levels, t.con(ULT, summed(t, sums), t.lit(0)))


def alone(made, *numbers):
    """A container whose loop has what is made as its invariant."""
    t = Terms()
    return container(t, FILTER, [LOOP], [(0, made(t, *numbers))])


PROVED = [  # what is made, and how `prove` ends
    ("h, equal sums of 32 leaves", equal_sums, (32, 1), "written 781468"),
    ("h, 40 equal sums of 64 leaves", equal_sums, (64, 40), "status 5"),
    ("h, 255 equal sums of 64 leaves", equal_sums, (64, 255), "status 5"),
    ("i, implications, 300 deep", implications, (300, 1), "written 2747140"),
    ("i, implications, 2,000 deep", implications, (2000, 1), "status 5"),
    ("i, implications of 20 parts, 1,000 deep", implications, (1000, 20), "status 5"),
    ("j, 500 rights, and none that is asked for", rights_asked, (500,), "written 184484"),
    ("j, 5,000 rights", rights_asked, (5000,), "status 5"),
    ("k, 2,000 bounds, and none that is asked for", bounds_asked, (2000, 2000), "written 844472"),
    ("k, 20,000 bounds", bounds_asked, (20000, 10000), "status 5"),
    ("l, 20,000 bounds of one register", bounds_of_one, (20000,), "written 1684904"),
    ("m, 2^16 contexts of a word", below, (16,), "written 7772"),
    ("m, 2^12 contexts of a sum of 500 parts", sums_below, (12, 500), "status 5"),
]


def for_prove():
    for name, made, numbers, wanted in PROVED:
        yield name, "filter", alone(made, *numbers), wanted


# ---- for `pcc_native`: accepted code, or a container that is dear to check

def returns_and_heads():
    """512 returns, each the target of a branch that stands behind them: so a loop head on no loop."""
    branches = [beq(1 + k % 8, k - (512 + k) - 1) for k in range(511)]
    return container(Terms(), TAG, [RETURN] * 512 + branches + [RETURN])


def for_native():
    yield "p, 512 returns at loop heads", "tag", returns_and_heads(), "prove"
    for parts, count, wanted in ((20, 14000, "written 537"), (3000, 12000, "status 5")):
        t = Terms()
        data = returning_container(t, under_equality(t, instances(t, parts, count)))
        yield "p, %d instances of %d parts" % (count, parts), "tag", data, wanted
    t = Terms()
    yield "p, 40000 formulas at 30 depths", "tag", at_depths(t, 40000, 30, 200), "status 5"


# ---- for `pcc_auto`: what it searches

NOP = 0x47FF041F
NOT_ALLOWED = 0xA43F0040  # ldq r1,64(r31)


def endless(count, register=None):
    """So many loops of one branch each, to be left at any time."""
    return [beq(CHANGED[k % 8] if register is None else register, -1) for k in range(count)]


def loops_bare(count):
    return container(Terms(), FILTER, endless(count) + [RETURN_1, RETURN])


def loops_beside_shared(annotated, bare, levels):
    """Loops whose invariants are equations of a word that is doubled so often, and loops without any."""
    t, invariants = Terms(), []
    for k in range(annotated):
        whole = t.con(ADD, word(t, 2), t.lit(k))
        for _ in range(levels):
            whole = t.con(ADD, whole, whole)
        invariants.append((k, t.con(EQ, whole, whole)))
    return container(t, FILTER, endless(annotated + bare) + [RETURN_1, RETURN], invariants)


def in_contexts(t, levels, formula):
    """The formula under each of 2^levels choices of hypotheses."""
    for k in range(levels):
        formula = t.con(AND, *[t.con(IMP, t.con(ULE, t.lit(k), word(t, r)), formula) for r in (2, 3)])
    return formula


def last_bound(t, count, levels):
    """Bounds of sums of a register lead to the last of them, in so many contexts."""
    bounded = lambda k, most: t.con(ULE, t.con(ADD, word(t, 1), t.lit(k)), t.lit(most))
    return t.con(IMP, joined(t, [bounded(k, 5) for k in range(count)]), in_contexts(t, levels, bounded(count - 1, 6)))


def dear_before(count, levels, ways=0, hints=0):
    """A loop with such an invariant, which is easy; then a load that isn't allowed, or so many ways to a loop whose
    invariant asks for a right that each of so many hypotheses gives."""
    t = Terms()
    words, invariants = [NOP] + endless(1, 2), [(1, last_bound(t, count, levels))]
    if hints:
        for k in range(ways):
            register = 3 + k % 6
            words += [beq(register, 1), addq(register, 1, register)]
        right = t.con(RD, t.con(ADD, word(t, 7), t.lit(8)))
        given = joined(t, [t.con(IMP, t.con(ULT, word(t, 5), t.lit(k)), right) for k in range(hints)])
        invariants.append((len(words), t.con(IMP, given, right)))
        words += endless(1, 2)
    else:
        words.append(NOT_ALLOWED)
    return container(t, FILTER, words + [RETURN_1, RETURN], invariants)


def lemma_before(count):
    """A lemma of so many instances, and code that isn't allowed."""
    t = Terms()
    formula, proof = instances(t, 20, count)
    held = all_equal(t)
    over = t.lam(t.con(IMP, held, t.lowered(formula)))
    under = t.lam(t.con(IMP_I, held, t.lowered(formula), t.lam(proof)))
    lemma = t.con(ALL, over), t.con(ALL_I, over, under)
    return in_version_4(container(t, TAG, [NOT_ALLOWED, RETURN], (), None, [lemma]), DIGESTS["tag"])


def high(count):
    """An equation of sums of so many parts, one in the next."""
    t = Terms()
    whole = grown(t, word(t, 1), count)
    return container(t, FILTER, endless(1, 2) + [NOT_ALLOWED, RETURN_1, RETURN], [(0, t.con(EQ, whole, whole))])


SEARCHED = [  # the policy, what is made, and the first line
    ("q, 255 loops", "filter", loops_bare, (255,), "written 36348, invariants 255"),
    ("r, 128 shared invariants, 128 loops without", "filter", loops_beside_shared, (128, 128, 12),
     "written 468184, invariants 256"),
    ("s, 2,000 bounds of sums in 2^10 contexts", "filter", dear_before, (2000, 10), "part 1, from index 1"),
    ("t, 300 hints on 2^8 ways, behind these", "filter", dear_before, (2000, 10, 8, 300), "status 5"),
    ("u, a lemma of 13,500 instances of 20 parts", "tag", lemma_before, (13500,), "part 0, from the start"),
    ("v, a sum of 2,000 parts", "filter", high, (2000,), "part 1, from index 0"),
    ("v, implications 1,300 deep", "filter", alone, (implications, 1300, 1), "status 5"),
]


def for_auto():
    for name, policy, made, numbers, wanted in SEARCHED:
        yield name, policy, made(*numbers), wanted


class Programs:
    """The programs that are measured, and a folder for what they read and write."""

    def __init__(self, pcc, native, auto, work):
        self.pcc, self.native, self.auto, self.work = pcc, native, auto, work
        self.file, self.out = os.path.join(work, "container"), os.path.join(work, "out")

    def words(self, command, policy):
        """The words that run a command on the file."""
        if command in ("native", "auto"):
            return [self.native if command == "native" else self.auto, policy, self.file, self.out]
        return [self.pcc, command, policy, self.file] + [self.out] * (command == "prove")

    def put(self, data):
        with open(self.file, "wb") as file:
            file.write(data)

    def proved(self, policy, data):
        """The container with the proof of `prove`."""
        self.put(data)
        subprocess.run([self.pcc, "prove", policy, self.file, self.file], stdout=subprocess.DEVNULL, check=False)
        with open(self.file, "rb") as file:
            return file.read()

    def fits(self, command, name, policy, data, wanted):
        """Prints a row; whether the line is the one wanted, and nothing is past what is looked for."""
        self.put(data)
        found = run(self.words(command, policy), self.work)
        line = found.line.split("\n")[0] or "status %d" % found.status
        slow = found.seconds > MOST[command][0] or found.megabytes > MOST[command][1]
        note = ("" if line == wanted else "  WANTED " + wanted) + ("  TOO MUCH" if slow else "")
        print("%-6s %-46s %9d bytes %6.2f s %5.0f MB  %s%s"
              % (command, name, len(data), found.seconds, found.megabytes, line, note), flush=True)
        return line == wanted and not slow


def asked():
    """Each file: the command, its name, the policy, the bytes, and how the first line has to be."""
    for command, made in (("check", families), ("prove", for_prove), ("native", for_native), ("auto", for_auto)):
        for row in made():
            yield (command, *row)


def main(pcc, native, auto, work, *chosen):
    programs, passed = Programs(pcc, native, auto, work), True
    for command, name, policy, data, wanted in asked():
        if chosen and not any(it in name for it in chosen):
            continue
        if pcc == "write":
            with open(os.path.join(work, name.replace(" ", "_").replace(",", "")), "wb") as out:
                out.write(data)
            continue
        if wanted == "prove":
            data, wanted = programs.proved(policy, data), "accepted" if command == "check" else "written 16874"
        passed = programs.fits(command, name, policy, data, wanted) and passed
    return 0 if passed else 1


if __name__ == "__main__":
    sys.setrecursionlimit(100000)
    sys.exit(main(*sys.argv[1:]))
