"""The prover refuses each mutant of a crate: a wrong body of must-fail/ or planted.edits (its contract is strong enough).

Words: none: all mutants; CRATE or CRATE/NAME ..: those of the crate, or those whose names begin so. The crate is checked first, as `rt check`
does, and each mutant over what that has kept: seconds, once the crate is proved. --over TREE: those of must-fail/, over the libraries that
`rt ci` has built in TREE, as the gate does.

The prover judges each function alone, so mutants of functions of different names stand in one copy, of which only these functions
are checked, with those that they call. Where one that it calls is refused, a function is not judged, so what is not judged is tried
again with what is left, and at last alone. In each check of many one of two other functions has to be proved as it stands.

A mutant is refused; by a proof: only because a written proof names what it took away, which says little; let through: the crate is
proved with it; or no mutant: it can't be applied, or doesn't reach the prover. The last two, and no proved function, are failures.
"""

import os
import re
import shutil
from collections import Counter

from tests.harness import programs
from tests.harness.checks import check_in_place, printed_by, words_over
from tests.harness.crates import reached, uses_of
from tests.harness.folders import temporary
from tests.harness.mutants import Mutant, functions_in, mutants_of, sources
from tests.harness.paths import TOP, read_text, write_text
from tests.harness.verdicts import VERDICT, errors_in, function_of, functions_with

SECONDS, GATE = 540, "beside"
# A call, or the function's own head.
CALL = re.compile(r"(\w+)(?:::<.*?>|<.*?>)?\(")
# Signs that call a function without its name.
SIGNS = {"?": "from", "==": "eq", "!=": "eq", "for ": "next"}
# What an error in a proof file says of a name that the mutant took away.
NAMES_WHAT_IS_GONE = re.compile(r"(\./)?proofs/.*(has no field|is not in scope|has no `|was not admitted|that depends? on )")


def run(report, words):
    tree, words = (os.path.abspath(words[1]), words[2:]) if words[:1] == ["--over"] else (None, words)
    named = [it.partition("/")[::2] for it in words]
    is_wanted = lambda crate, mutant: not named or any(crate == it and mutant.startswith(begin) for it, begin in named)
    crates = {name: [it for it in mutants_of(f"{TOP}/crates/{name}", not tree) if is_wanted(name, it[0])] for name in uses_of()}
    names = sorted((it for it in crates if crates[it]), key=lambda it: -len(crates[it]))
    for _ in programs.each(lambda name: try_crate(report, name, crates[name], tree), names):
        report.count("crates")


def try_crate(report, name, mutants, tree):
    """Tries the mutants of a crate in a copy of it, over the tree's libraries, or over what a check of the crate has kept."""
    printed = "" if tree else check_in_place(name)
    if not tree and "logic=proved" not in printed:
        return report.fail(f"{name} is not proved as it stands: {printed[-2000:]}")
    with temporary("mutants-") as folder:
        shutil.copytree(f"{TOP}/crates/{name}", f"{folder}/{name}", ignore=shutil.ignore_patterns("out", "planted*"))
        if not tree:
            shutil.copytree(f"{TOP}/crates/{name}/out/incremental", f"{folder}/{name}/kept")
        words = [*words_over(name, tree or TOP), "--jobs", "1", "--incremental", "kept"]
        Trial(report, f"{folder}/{name}", words, mutants).try_all()


class Batch:
    """Mutants that stand in one copy: no two are in functions of one name, and two other functions are left as they stand."""

    def __init__(self, controls):
        self.controls, self.texts, self.functions, self.mutants = controls, {}, set(), []

    def unchanged(self, functions):
        """The first two functions from which none of these is reached, as far as names tell."""
        return [name for name, reached in self.controls if not reached & functions][:2]

    def take(self, mutant):
        """Adds a mutant, unless it does not fit. The first one always does."""
        functions = self.functions | mutant.functions
        if self.mutants and (self.functions & mutant.functions or len(self.unchanged(functions)) < 2):
            return False
        texts = mutant.applied_to(self.texts)
        if texts is None:
            return False
        self.texts, self.functions = texts, functions
        self.mutants.append(mutant)
        return True


class Trial:
    """The mutants of one crate, the words of a check of it, and the verdicts."""

    def __init__(self, report, crate, words, mutants):
        self.report, self.crate, self.words, self.verdicts, self.checks = report, crate, words, {}, 0
        self.name, self.mutants = os.path.basename(crate), [Mutant(*it, crate) for it in mutants]

    def check(self, texts, functions=()):
        """What a check prints with these texts in place of the crate's own: of some functions, or of the whole crate."""
        own = {file: read_text(f"{self.crate}/{file}") for file in texts}
        self.write(texts)
        printed = printed_by([*self.words, *(it for name in sorted(functions) for it in ("--only", name))], self.crate)
        self.write(own)
        return printed

    def write(self, texts):
        for file, text in texts.items():
            write_text(f"{self.crate}/{file}", text)

    def try_all(self):
        left = [it for it in self.mutants if it.fault is None]
        left = self.try_together(left, controls_of(self.crate))
        for mutant in left:
            self.verdicts[mutant] = self.verdict_alone(mutant)
        for mutant in self.mutants:
            verdict = self.verdicts.get(mutant, "no mutant")
            self.report.count(verdict)
            if verdict == "by a proof":
                self.report.note(f"{self.name} {mutant.name}: {verdict}")
            elif verdict != "refused":
                self.report.fail(f"{verdict}: {self.name} {mutant.name}")
        counts = Counter(self.verdicts.values())
        self.report.note(f"{self.name}: {len(self.mutants)} mutants, {counts['refused']} refused; {self.checks} checks of many, {len(left)} of one")

    def try_together(self, left, controls):
        """Tries mutants in batches, as long as a round judges some. Returns those that are left."""
        while left:
            batches = []
            for mutant in left:
                if not any(it.take(mutant) for it in batches):
                    batches.append(Batch(controls))
                    batches[-1].take(mutant)
            for batch in batches:
                self.try_batch(batch)
            unjudged = [it for it in left if it not in self.verdicts]
            if len(unjudged) == len(left):
                break
            left = unjudged
        return left

    def try_batch(self, batch):
        unchanged = set(batch.unchanged(batch.functions))
        if not unchanged:
            return
        printed = self.check(batch.texts, unchanged.union(*(it.asked() for it in batch.mutants)))
        self.checks += 1
        if not unchanged & functions_with(printed, "proved"):
            self.report.fail(f"{self.name}: {' or '.join(unchanged)} is not proved as it stands")
        for mutant in batch.mutants:
            verdict = verdict_of(mutant, batch.texts, printed)
            if verdict:
                self.verdicts[mutant] = verdict

    def verdict_alone(self, mutant):
        """What a check of the whole crate says of the mutant alone."""
        printed = self.check(mutant.applied_to({}))
        if "logic=proved" in printed:
            return "let through"
        if "logic=not-proved" not in printed or not VERDICT.search(printed):
            return "no mutant"
        errors = [it[0] for it in errors_in(printed)]
        return by_errors(errors) if errors else "refused"


def verdict_of(mutant, texts, printed):
    """What the check of a batch says of one of its mutants; None where it says nothing."""
    if mutant.functions & functions_with(printed, "no proof: expected"):
        return "refused"
    unproved = mutant.functions & functions_with(printed, "not proved")
    errors = [it[0] for it in errors_in(printed) if function_of(it, texts) in unproved]
    return by_errors(errors) if errors else None


def by_errors(errors):
    return "by a proof" if all(NAMES_WHAT_IS_GONE.match(it) for it in errors) else "refused"


def controls_of(crate):
    """Functions that a batch may leave as they stand, the shortest first, each with all names of functions that are reached from
    it: those with a name of their own, of no trait, and with a body. A check does not see those of tests.rt."""
    known = [it for file in sources(crate) if os.path.basename(file) != "tests.rt" for it in functions_in(read_text(file))]
    names = Counter(it[0] for it in known)
    calls = {name: set() for name in names}
    for name, _, text in known:
        calls[name] |= {*CALL.findall(text), *(it for sign, it in SIGNS.items() if sign in text)} & set(names)
    alone = [it for it in known if names[it[0]] == 1 and it[1] != "trait" and "{}" not in it[2]]
    return [(name, reached(name, calls)) for name, _, _ in sorted(alone, key=lambda it: (len(it[2]), it[0]))]
