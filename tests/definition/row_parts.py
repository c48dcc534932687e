"""The proofs of a table whose rows are too many for one computation: it is computed some rows at a time.

tests/definition/worked_rows.py writes them to `crates/worked_rows/proofs/TABLE/Answers.antt`.
"""

HEAD = """use Rattle.std.proofs.Common.{{◌≡◌, ℕ, [], ◌++◌, List, drop, refl, subst, take}}
use Rattle.worked_rows.specs.{module}.{{{table}_rows}}
use Rattle.worked_rows.specs.Playing.{{Row, differing}}
use Rattle.worked_rows.specs.Showing.{{AllShown, short, unshown}}
use Rattle.worked_rows.proofs.Computing.{{computing}}
use Rattle.worked_rows.proofs.ShownLemmas.{{all_shown, both_given, both_shown}}
use Rattle.worked_rows.proofs.{table}.Goals as goal

-- some rows at a time: one computation takes only so many steps
abbrev part : ℕ → List Row
part n = take {size} (drop n {table}_rows)

abbrev from_{last} : List Row
from_{last} = drop {last} {table}_rows
"""
FROM = """abbrev from_{start} : List Row
from_{start} = part {start} ++ from_{behind}
"""
ALL = """all-rows : from_0 ≡ {table}_rows
all-rows = refl
"""
COMPUTED = """given-{start} : differing {rows} ≡ []
unfolding computing
given-{start} = refl

unshown-{start} : unshown (short {rows}) ≡ []
unfolding computing
unshown-{start} = refl

shown-{start} : AllShown (short {rows})
shown-{start} = all_shown (short {rows}) unshown-{start}
"""
CLAUSE = """pub returns-clause-{clause} : goal.returns-clause-{clause}
returns-clause-{clause} c = subst (λ rows. {relation}) all-rows
"""
CLAUSES = {"given": "differing rows ≡ []", "shown": "AllShown (short rows)"}


def joined(clause, starts, size):
    """The proof of a clause for all rows, by those for the parts."""
    *parts, last = starts
    rows = [f"    (both_{clause} (part {start}) from_{start + size} {clause}-{start}" for start in parts]
    return CLAUSE.format(clause=clause, relation=CLAUSES[clause]) + "\n".join(rows) + f" {clause}-{last}" + ")" * len(parts) + "\n"


def proofs(table, module, count, size):
    """The proofs of a table with so many rows; the last part may have one row more than the others."""
    starts = range(0, count - 1, size)
    *parts, last = starts
    texts = [HEAD.format(module=module, table=table, size=size, last=last)]
    texts += [FROM.format(start=start, behind=start + size) for start in reversed(parts)]
    texts.append(ALL.format(table=table))
    texts += [COMPUTED.format(start=start, rows=f"(part {start})") for start in parts]
    texts.append(COMPUTED.format(start=last, rows=f"from_{last}"))
    texts += [joined(clause, starts, size) for clause in CLAUSES]
    return "\n".join(texts)
