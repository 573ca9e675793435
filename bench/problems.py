"""Problems in DFG syntax, and the same clauses in TPTP syntax for eprover."""
import random

HEAD = (
    "begin_problem(p).\nlist_of_descriptions.\nname({*n*}).\nauthor({*a*}).\n"
    "status(unknown).\ndescription({*d*}).\nend_of_list.\n"
)


def literal(atom, positive):
    """A literal in DFG syntax and in TPTP syntax."""
    return (atom, atom) if positive else (f"not({atom})", f"~{atom}")


def signed_problem(functions, predicates, clauses):
    """The DFG text and the TPTP text of clauses, each a list of (atom, positive); symbols are pairs of name and arity."""
    symbols = ",".join(f"({name},{arity})" for name, arity in functions)
    relations = ",".join(f"({name},{arity})" for name, arity in predicates)
    dfg = [HEAD, "list_of_symbols.\n", f"functions[{symbols}].\npredicates[{relations}].\n", "end_of_list.\n"]
    dfg.append("list_of_clauses(axioms,cnf).\n")
    tptp = []
    for number, clause in enumerate(clauses, 1):
        literals = [literal(*parts) for parts in clause]
        dfg.append(f"clause(or({','.join(d for d, _ in literals)})).\n")
        tptp.append(f"cnf(c{number},axiom,({' | '.join(t for _, t in literals)})).\n")
    dfg.append("end_of_list.\nend_problem.\n")
    return "".join(dfg), "".join(tptp)


def problem(constants, predicates, clauses):
    """The two texts of clauses over predicates of one argument, each a list of (predicate, positive, argument)."""
    signed = [[(f"{name}({argument})", positive) for name, positive, argument in clause] for clause in clauses]
    return signed_problem([(c, 0) for c in constants], [(p, 1) for p in predicates], signed)


def chain(links):
    """r0(c); r0(c) implies r1(c), and so on; not the last one. It has no model."""
    predicates = [f"r{i}" for i in range(links + 1)]
    clauses = [[("r0", True, "c")]]
    clauses += [[(f"r{i}", False, "c"), (f"r{i + 1}", True, "c")] for i in range(links)]
    clauses.append([(f"r{links}", False, "c")])
    return problem(["c"], predicates, clauses)


def random_clauses(count, atoms, seed):
    """So many clauses of three literals over different atoms, with any signs."""
    source = random.Random(seed)
    predicates = [f"p{i}" for i in range(atoms)]
    clauses = []
    for _ in range(count):
        chosen = source.sample(predicates, 3)
        clauses.append([(name, source.random() < 0.5, "c") for name in chosen])
    return problem(["c"], predicates, clauses)


def groups(count):
    """So many groups of four clauses with a model. In each group one conclusion is new, and one clause subsumes the rest."""
    predicates = []
    clauses = []
    for k in range(count):
        p, q, r, s = names = [f"{letter}{k}" for letter in "pqrs"]
        predicates += names
        clauses += [[(p, True, "c"), (q, True, "c")], [(p, False, "c"), (r, True, "c")]]
        clauses += [[(r, False, "c"), (s, True, "c")], [(s, True, "c")]]
    return problem(["c"], predicates, clauses)


def pigeons(count, holes):
    """Each of so many pigeons sits in one of the holes, and no two in one hole."""
    place = [[f"p{i}x{j}" for j in range(holes)] for i in range(count)]
    clauses = [[(name, True, "c") for name in row] for row in place]
    for hole in range(holes):
        for a in range(count):
            clauses += [[(place[a][hole], False, "c"), (place[b][hole], False, "c")] for b in range(a + 1, count)]
    return problem(["c"], [name for row in place for name in row], clauses)
