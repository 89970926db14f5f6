"""Calls of the case programs whose arguments are too long to be kept in a file: deep, wide and many."""

# brackets nest at most this deep
DEEPEST = 5000


def nested(front, middle, back, times):
    return front * times + middle + back * times


def arrows(count):
    """The type of the functions that take so many arguments of type I, to I."""
    return nested("(", "I", " I)", count)


def applied(head, arguments):
    return "(A " * len(arguments) + head + "".join(f" {argument})" for argument in arguments)


def deep_forms():
    yield f"sexp {nested('(', 'a', ')', DEEPEST)}", "0"
    yield f"sexp {nested('(', 'a', ')', DEEPEST + 1)}", f"Text(TooDeep({DEEPEST}))"
    for ty in [nested("(O ", "O", ")", DEEPEST), arrows(DEEPEST)]:
        yield f"type {ty}", ty
    for term in [
        nested("(A NOT ", "TRUTH", ")", DEEPEST),
        nested("(L I ", f"(B {DEEPEST - 2})", ")", DEEPEST - 1),
        nested("(A (L O (B 0)) ", "(V x O)", ")", DEEPEST - 2),
        nested("(A (L I ", "(V x O)", ") (V y I))", DEEPEST // 2 - 1),
    ]:
        yield f"term {term}", term


def deep_terms():
    negations = nested("(A NOT ", "TRUTH", ")", DEEPEST - 1)
    yield f"type_of {negations}", "O"
    yield f"same ({negations} {negations})", "yes"
    yield f"free_variables {negations}", "0"


def deep_normal_forms():
    count = DEEPEST // 2 - 10
    many = arrows(count)
    left = applied(f"(V f {many})", ["(V c I)"] * count)
    conjunctions = nested("(A (A AND ", "TRUTH", ") TRUTH)", count)
    abstractions = nested("(L I ", f"(B {DEEPEST - 2})", ")", DEEPEST - 1)
    negations = nested("(A NOT ", "TRUTH", ")", DEEPEST)
    to_the_right = nested("(A (A AND TRUTH) ", "TRUTH", ")", DEEPEST - 1)
    for long in [negations, left, abstractions, conjunctions, to_the_right, wide(14)]:
        yield f"normal {long}", long
        yield f"is_long_normal {long}", "yes"
    yield f"normal {nested('(A (L I (B 0)) ', '(V c I)', ')', DEEPEST - 2)}", "(V c I)"
    bound = [f"(B {index})" for index in reversed(range(count))]
    yield f"normal (V f {many})", nested("(L I ", applied(f"(V f {many})", bound), ")", count)


def wide(depth):
    """A full tree of conjunctions of TRUTH."""
    term = "TRUTH"
    for _ in range(depth):
        term = f"(A (A AND {term}) {term})"
    return term


def letter(number):
    return f"(V a{number} O)"


def many_premises():
    steps = " ".join(f"(A (A IMPLIES {letter(n)}) {letter(n + 1)})" for n in reversed(range(1, 500)))
    yield f"follows (({steps} {letter(1)}) {letter(500)})", "yes"
    yield f"follows (({' '.join(pigeons(6, 5))}) FALSEHOOD)", "yes"


def pigeons(count, holes):
    """Each pigeon is in a hole, and no two are in one."""
    for pigeon in range(count):
        some = "FALSEHOOD"
        for hole in range(holes):
            some = f"(A (A OR {some}) {letter(pigeon * holes + hole)})"
        yield some
        for other in range(pigeon):
            for hole in range(holes):
                yield f"(A NOT (A (A AND {letter(pigeon * holes + hole)}) {letter(other * holes + hole)}))"


def deep_proofs():
    negations = nested("(A NOT ", "(V p O)", ")", DEEPEST - 2)
    yield f"deep_formula ({negations} {nested('(NOT ', 'LEAF', ')', DEEPEST - 2)})", negations
    front = "(PROOF 1 TRUTH "
    proof = f"{front}{nested('(NOT ', 'LEAF', ')', DEEPEST - 1)} ())"
    yield f"read_proof {proof}", f"{proof}\n"
    place = len(front) + len("(NOT ") * (DEEPEST - 1)
    yield f"read_proof {front}{nested('(NOT ', 'LEAF', ')', DEEPEST)} ())", f"Text(TooDeep({place}))"
    pairs = " ".join(f"({n} {n + 1})" for n in range(1, 50_001))
    yield f"read_mating ({pairs})", f"50000 {pairs}"


def many_branches(count):
    """Branches that each wait for the next one."""
    body = "(A (A IMPLIES (A (V P (O I)) (B 1))) (A (V P (O I)) (B 0)))"
    formula = f"(A (SOME I) (L I (A (ALL I) (L I {body}))))"
    branches = " ".join(f"((V a{n + 1} I) (SEL a{n} (IMPLIES LEAF LEAF)))" for n in range(1, count + 1))
    yield f"order ({formula} (EXP {branches}))", "order " + " ".join(str(n) for n in reversed(range(1, count + 1)))


def disjunctions(count):
    """A balanced tree of so many disjuncts, as a formula and as an expansion tree."""
    if count == 1:
        return "(V p O)", "LEAF"
    (left, left_tree), (right, right_tree) = disjunctions(count // 2), disjunctions(count - count // 2)
    return f"(A (A OR {left}) {right})", f"(OR {left_tree} {right_tree})"


def long_path(count):
    """The leaves of a tree of disjunctions are one path."""
    formula, tree = disjunctions(count)
    yield f"first_open (PROOF 1 {formula} {tree} ())", "path " + " ".join(str(n) for n in range(1, count + 1))


def deep_derivations():
    front = "(DERIVATION 1 (1 () TRUTH (UI 0 "
    derivation = f"{front}{nested('(L O ', 'TRUTH', ')', DEEPEST - 3)})))"
    yield f"derivation {derivation}", f"{derivation}\n"
    place = len(front) + len("(L O ") * (DEEPEST - 3)
    yield f"derivation {front}{nested('(L O ', 'TRUTH', ')', DEEPEST - 2)})))", f"Text(TooDeep({place}))"
    many = " ".join(str(n) for n in range(1, 60_001))
    derivation = f"(DERIVATION 1 (70000 ({many}) TRUTH (RULEP {many})))"
    yield f"derivation {derivation}", f"{derivation}\n"
    derivation = f"(DERIVATION 1 {' '.join(f'({n} ({n}) TRUTH (P))' for n in range(1, 40_001))})"
    yield f"derivation {derivation}", f"{derivation}\n"


def shared_types(count):
    """Each name takes the one before it twice, so that types have exponentially many letters; the last phrase has no typing."""
    front = "TRUTH AND " + " AND ".join(f"a{n} a{n - 1} a{n - 1}" for n in range(1, count + 1)) + " AND "
    yield f"formula {front}[p p]", f"NoTyping({len(front)})"


def deep_calls():
    """Pairs of a program's name and its calls, each with its answer."""
    yield "term_calls", [*deep_forms(), *deep_terms(), *deep_normal_forms(), *many_premises()]
    yield "proof_calls", [*deep_proofs(), *many_branches(5_000), *long_path(80_000)]
    yield "deduction_calls", list(deep_derivations())
    yield "formula_calls", list(shared_types(120))
