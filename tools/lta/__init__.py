"""Mbirukaze for testers and analysts: hours judged by the proved library, explained, shown, built and drawn.

    import lta
    answer = lta.judge(case, proposal)            two files' bytes
    answer.number, answer.index, answer.accepted
    answer.number == lta.Verdict.BRANCH_RULE      the numbers by name
    answer.welfare, answer.gap, answer.totals     microcents, and None or empty without a report
    answer.prices                                 grains, one per zone
    answer.gap.euros(), answer.prices[0].euros()  the same as a decimal.Decimal, exact
    lta.judge(case, proposal, families)           the same with a family list's bytes; without one it is None, not empty
    lta.judge_files("a.case")                     the same by its path: with a.proposal, and a.families if it is there
    lta.judge_files("a.case", "b.proposal")       and by two
    for one in lta.hours("folder"):               what lta judge folder would judge
        one.name, one.paths, one.families         the files that are paired, and the path of the family list or None
        lta.judge_input(one)                      lta.InputError says why an hour cannot be read
    print(lta.explain(case, proposal).words)
    found = lta.also(case, proposal)              what else is wrong with a refused hour; families as a third argument
    found.causes, found.unasked                   explanations, and numbers that cannot be asked before these are mended
    print(found.line)                             also: 22, 24 branch 1; not asked: 26; and that it is not proved
    answer = lta.intuitive(case, proposal, [(0, 1), (1, 0)])    pairs of zones; without them the case's links
    answer.intuitive, answer.total                True or False, and tenths; None where answer.number is not 0
    lta.carried(net_exports, zone_prices, pairs)  the same of tenths, export positive, and grains
    answer = lta.dump_proposal(case, dump)        a case's and a solver's dump's bytes
    answer.number, answer.index, answer.proposal  the proposal's bytes; None where answer.number is not 0
    answer = lta.case_columned(case)              a case's bytes; lta.case_restored of a columned file's
    answer.number, answer.index, answer.file      the other file's bytes; None where answer.number is not 0
    answer = lta.shortfalls(case, proposal)       an accepted hour's
    answer.orders, answer.branches, answer.links  hundred-thousandths of a microcent each, which have euros() too; None
                                                  where answer.number is not 0
    lta.identity()                                version, library_sha256, and library_belongs: whether it is our own

In the repository the library is proved and built on first use, which takes minutes. A line on standard error says so,
in a test runner too.

Verdicts, totals, prices, shortfalls, a yes or no, proposals and columned files come from the library alone.
Explanations are computed next to it, are not proved, and say so; one that disagrees with the library is not given.
"""

from .amounts import GapPart, Grains, Microcents
from .causes import Disagreement, Explanation, explain
from .files import hours, judge_files, judge_input
from .further import Also, also
from .hour import build, build_families, field_at, show
from .inputs import Input, InputError
from .library import (
    BuildError,
    Carried,
    Columned,
    Dumped,
    Judgement,
    Shortfalls,
    carried,
    case_columned,
    case_restored,
    dump_proposal,
    identity,
    intuitive,
    judge,
    judge_joined,
    shortfalls,
)
from .rules import Sums, cut
from .verdict import Verdict

__all__ = [
    "Also",
    "BuildError",
    "Carried",
    "Columned",
    "Disagreement",
    "Dumped",
    "Explanation",
    "GapPart",
    "Grains",
    "Input",
    "InputError",
    "Judgement",
    "Microcents",
    "Shortfalls",
    "Sums",
    "Verdict",
    "also",
    "build",
    "build_families",
    "carried",
    "case_columned",
    "case_restored",
    "cut",
    "dump_proposal",
    "explain",
    "field_at",
    "hours",
    "identity",
    "intuitive",
    "judge",
    "judge_files",
    "judge_input",
    "judge_joined",
    "shortfalls",
    "show",
]
