"""Proofs by hand for the scripts of examples: theorems by the rules of docs/PROOFS.md.

A theorem is a formula and its proof, a pair; most functions below give one, by a rule or by some.
Formulas, words and proofs are trees: a number is a literal, a text is a variable's name, and a
tuple is a constant with its parts, ("lam", name, body), ("calc", operator, v, w) or ("fact",
relation, v, w).
Nothing of the program is used.
"""
from terms import *  # noqa: F403

WORD = 1 << 64
OPERATORS = {ADD: lambda v, w: v + w, SUB: lambda v, w: v - w, BAND: lambda v, w: v & w}
REGISTERS = tuple("r%d" % k for k in range(31))


# ---- theorems by one rule

def by(rule, conclusion, words, *premises):
    """The conclusion of a rule that has these words as parameters."""
    return conclusion, (rule, *words, *[proof for _, proof in premises])


def both(*theorems):
    """Their conjunction, nested to the right as the condition's are."""
    *before, whole = theorems
    for part in reversed(before):
        whole = by(AND_I, (AND, part[0], whole[0]), (part[0], whole[0]), part, whole)
    return whole


def parts(whole):
    """The theorems of which such a conjunction is made."""
    found = []
    while whole[0][0] == AND:
        _, first, rest = whole[0]
        found.append(by(AND_L, first, (first, rest), whole))
        whole = by(AND_R, rest, (first, rest), whole)
    return found + [whole]


def given(name, formula, shown):
    """That the formula implies what is shown of it as a hypothesis of this name."""
    formula_shown, proof = shown((formula, name))
    return (IMP, formula, formula_shown), (IMP_I, formula, formula_shown, ("lam", name, proof))


def applied(implication, theorem):
    """What is implied by a theorem."""
    _, condition, shown = implication[0]
    return by(IMP_E, shown, (condition, shown), implication, theorem)


def rewritten(equal, over, theorem):
    """The theorem over(a) with b for a, by (eq a b)."""
    _, a, b = equal[0]
    if a == b:
        return theorem
    return over(b), (EQ_SUB, ("lam", "x", over("x")), a, b, equal[1], theorem[1])


def turned(equal):
    """(eq b a) by (eq a b)."""
    _, a, _ = equal[0]
    return rewritten(equal, lambda x: (EQ, x, a), by(EQ_REFL, (EQ, a, a), (a,)))


def for_all(names, theorem):
    """The theorem for all words of these names, memories where it is m; the first is outermost."""
    formula, proof = theorem
    for name in reversed(names):
        quantifier, rule = (ALLM, ALLM_I) if name == "m" else (ALL, ALL_I)
        over, under = ("lam", name, formula), ("lam", name, proof)
        formula, proof = (quantifier, over), (rule, over, under)
    return formula, proof


# ---- words that are computed

def value(word):
    """(eq word w) of a word that is made of literals, w being a literal."""
    if isinstance(word, int):
        return by(EQ_REFL, (EQ, word, word), (word,))
    operator, a, b = word
    of_a, of_b = value(a), value(b)
    v, w = of_a[0][2], of_b[0][2]
    result = OPERATORS[operator](v, w) % WORD
    theorem = (EQ, (operator, v, w), result), ("calc", operator, v, w)
    theorem = rewritten(turned(of_b), lambda x: (EQ, (operator, v, x), result), theorem)
    return rewritten(turned(of_a), lambda x: (EQ, (operator, x, b), result), theorem)


def holds(relation, a, b):
    """That a relation holds of two words that are made of literals."""
    of_a, of_b = value(a), value(b)
    v, w = of_a[0][2], of_b[0][2]
    theorem = (relation, v, w), ("fact", relation - EQ, v, w)
    theorem = rewritten(turned(of_b), lambda x: (relation, v, x), theorem)
    return rewritten(turned(of_a), lambda x: (relation, x, b), theorem)


# ---- the policy filter

def for_each(name, formula):
    return (ALL, ("lam", name, formula))


def all_of(*formulas):
    *before, whole = formulas
    for part in reversed(before):
        whole = (AND, part, whole)
    return whole


def in_packet(i, length):
    """That a word is the index of a quadword in so many bytes."""
    return (AND, (ULT, i, length), (EQ, (BAND, i, 7), 0))


def readable(packet, length):
    """That the packet's quadwords may be loaded."""
    return for_each("i", (IMP, in_packet("i", length), (RD, (ADD, packet, "i"))))


def filter_precondition():
    """That of the policy filter: the packet, the two quadwords of scratch, that these are apart."""
    of_packet, of_scratch = in_packet("i", "r17"), in_packet("j", 16)
    first, second = (ADD, "r16", "i"), (ADD, "r18", "j")
    scratch = for_each("j", (IMP, of_scratch, (AND, (RD, second), (WR, second))))
    differ = (IMP, (EQ, first, second), (FF,))
    apart = for_each("i", for_each("j", (IMP, (AND, of_packet, of_scratch), differ)))
    return all_of((ULE, 64, "r17"), readable("r16", "r17"), scratch, apart)


# ---- terms

def built(t, tree, names=(), known=None):
    """The tree as a term under binders of these names, the nearest last; it is built once for them."""
    known = {} if known is None else known
    place = id(tree), names
    if place not in known:
        known[place] = tree, term_of(t, tree, names, known)  # which keeps the tree, and so its id
    return known[place][1]


def term_of(t, tree, names, known):
    if isinstance(tree, int):
        return t.lit(tree)
    if isinstance(tree, str):
        return t.var(names[::-1].index(tree))
    head, *below = tree
    if head == "lam":
        return t.lam(built(t, below[1], names + (below[0],), known))
    if head in ("calc", "fact"):
        return t.node(CALC if head == "calc" else FACT, *below)
    return t.con(head, *[built(t, part, names, known) for part in below])
