#!/usr/bin/env python3
"""Compares the definitions of specs/ with the judge: definitions.py SCRATCH [--seed S] [--calls N] [--most M].

Draws scripts until N accepted calls of each kind with at most M clauses are at hand, and N sums and products, accepted
or refused with 13, whose heights are looked at. It writes a crate into the folder SCRATCH, which stands outside the
repository: one example for each call, in which the checker computes the definition and compares it with the judge's
answer. Then it runs the checker there. Nothing of it is kept.
"""

import argparse
import pathlib
import random
import shutil
import subprocess
import sys

from driver import Driver
from judge import add_driver_option
from script import Script, parse
from scripts import Generator
from turned import NAMES

HERE = pathlib.Path(__file__).resolve().parent
KINDS = {
    "range": "settings",
    "list": "settings",
    "binary": "settings",
    "eq": "eq",
    "ne": "ne",
    "ge": "ge",
    "le": "le",
    "lt": "lt",
    "gt": "gt",
    "plain": "plain",
    "shifted": "shifted",
    "same": "same",
    "dead": "dead",
    "heights": "heights",
}
OPERATIONS = [name.lower() for name in NAMES]
PER_FILE = 100
HEAD = """-- Definitions against the judge.
use Rattle.std.specs.Prelude.{◌≡◌, ℕ, negsuc, pos, List, [], ◌∷◌, cond, ltb, get_or}
use Rattle.std.proofs.Common.{refl}
use Rattle.sat.specs.Encoded.{EncodedRule}
use Rattle.sat.specs.Lit.{neg}
use Rattle.norm_csp.specs.Domain.{binary, list, range}
use Rattle.norm_csp.specs.Rules.{LinearTerm, eq, ge, gt, le, lt, ne}
use Rattle.log_encoding.specs.EncodeVarLog.{EncodedVar, encode_var_log}
use Rattle.log_encoding.specs.LogEncoding.{LogEncoding, no_encoding}
use Rattle.log_encoding.specs.Enumerate.{bounded, enumerate}
use Rattle.log_encoding.specs.Adder2.{eq_column}
use Rattle.log_encoding.specs.Column.{column}
use Rattle.log_encoding.specs.EncodeMulLog.{encode_mul_log}
use Rattle.log_encoding.specs.AdderSize.{Reached, height}
use Rattle.log_encoding.specs.VarSize.{setting_shape}
use Rattle.log_encoding.specs.Turned.{encode_turned, turned_reached}
use Rattle.log_encoding.specs.MulSize.{mul_reached}

-- heights up to the first above 12
abbrev tested : List Reached → List ℕ
tested [] = []
tested (r ∷ rs) = height r ∷ cond (ltb 12 (height r)) [] (tested rs)
"""


def integer(z):
    return f"(pos {z})" if z >= 0 else f"(negsuc {-z - 1})"


def listed(items):
    return "(" + "".join(f"{item} ∷ " for item in items) + "[])"


def encoding(e):
    return (
        f"(record {{ lits = {listed(e.used())}; low = {integer(e.low)}; "
        f"high = {integer(e.high)}; offset = {integer(e.offset)} }})"
    )


def representation(word, ints):
    if word == "range":
        return f"(range {integer(ints[0])} {integer(ints[1])})"
    if word == "list":
        return f"(list {listed(map(integer, ints))})"
    return f"(binary {ints[0]} {integer(ints[1])} {integer(ints[2])})"


def int_map(settings):
    return f"(λ i. get_or {listed(map(encoding, settings))} i no_encoding)"


def expression(word, ints, settings, variables):
    """The definition applied to the call's arguments, and its type."""
    if word in ("range", "list", "binary"):
        return f"encode_var_log {representation(word, ints)} {variables}", "EncodedVar"
    if word == "mul":
        x, y, m = ints
        return f"encode_mul_log {int_map(settings)} {x} {y} {m} {variables}", "EncodedRule"
    return f"encode_turned {int_map(settings)} {sum_of(ints)} {variables}", "EncodedRule"


def sum_of(ints):
    """Operation, constant and terms of a sum as it was given."""
    terms = zip(ints[2::2], ints[3::2])
    records = (f"record {{ var = {v}; coef = {integer(c)} }}" for v, c in terms)
    return f"{OPERATIONS[ints[0]]} {integer(ints[1])} {listed(records)}"


def heights(word, ints, settings):
    """The heights of the columns reached, by definition."""
    known = listed(map(encoding, settings))
    if word == "mul":
        shapes = " ".join(f"(setting_shape (get_or {known} {i} no_encoding))" for i in ints)
        return f"tested (mul_reached {shapes})"
    shapes = f"(λ i. setting_shape (get_or {known} i no_encoding))"
    return f"tested (turned_reached {shapes} {sum_of(ints)})"


def answer(word, made, clauses, variables):
    told = f"clauses = {listed(map(listed, clauses))}; vars = {variables}"
    if word in ("range", "list", "binary"):
        return f"record {{ encoding = {encoding(made)}; {told} }}"
    return f"record {{ {told} }}"


def kinds_of(call, script_kind):
    """The kinds that a call counts for."""
    word, ints, _, _, told = call
    if script_kind == "heights":
        return {"heights"} if told.reached else set()
    if word == "mul":
        return {script_kind}
    if word == "linear":
        return {OPERATIONS[ints[0]]} | ({"dead"} if told.reached.dead else set())
    return {word}


class Followed(Script):
    """A script whose last answer is kept."""

    def answered(self, word, answer):
        self.last = answer
        return []


def calls_of(driver, rng, script_kind, most):
    """The calls of a script to compare, each with the job before and after it."""
    script = Followed(driver)
    for line in Generator(script_kind, rng, driver).run(400):
        before = script.calls.job
        script.last = None
        script.line(line.encode())
        word, head, tail = parse(line.encode())
        told = script.last
        if script_kind == "heights" and told and told.reached:
            yield word, head + tail, before, script.calls.job, told
        elif word not in ("range", "list", "binary", "linear", "mul") or told.status:
            continue
        elif len(told.clauses) <= most:
            yield word, head + tail, before, script.calls.job, told


def example(kind, word, ints, before, after, told):
    """Type, definition and answer of one call."""
    settings = before.settings[: before.count]
    if kind == "heights":
        return "List ℕ", heights(word, ints, settings), listed(told.reached.heights)
    left, of = expression(word, ints, settings, before.variables)
    return of, left, answer(word, told.setting, told.clauses, after.variables)


def examples(driver, seed, calls, most):
    """`calls` examples of each kind."""
    counts = dict.fromkeys(KINDS, 0)
    made = []
    for kind, script_kind in KINDS.items():
        rng = random.Random(f"{kind} {seed}")
        while counts[kind] < calls:
            for call in calls_of(driver, rng, script_kind, most):
                if kind in kinds_of(call, script_kind) and counts[kind] < calls:
                    counts[kind] += 1
                    made.append(example(kind, *call))
    return counts, made


def write_crate(scratch, made):
    """A copy of the crates, and one more that holds the examples."""
    shutil.rmtree(scratch, ignore_errors=True)
    shutil.copytree(HERE.parent / "crates", scratch / "crates", ignore=shutil.ignore_patterns("out"))
    names = [line for line in (HERE.parent / "crates.txt").read_text().splitlines() if line]
    deps = "arithmetic sat norm_csp log_encoding"
    (scratch / "crates.txt").write_text("\n".join(names + [f"compared: {deps}"]) + "\n")
    crate = scratch / "crates" / "compared"
    for folder in ("src", "proofs"):
        (crate / folder).mkdir(parents=True)
    (crate / "src" / "lib.rt").write_text("// Examples only.\n#![tactic(auto)]\n")
    files = [made[i : i + PER_FILE] for i in range(0, len(made), PER_FILE)]
    (crate / "proofs" / "Lib.antt").write_text("".join(f"pub mod E{i}\n" for i in range(len(files))))
    for i, part in enumerate(files):
        text = [HEAD]
        for j, (of, left, right) in enumerate(part):
            text.append(
                f"e{j} : ◌≡◌ {{A = {of}}} ({left}) ({right})\nunfolding neg column eq_column enumerate bounded\ne{j} = refl\n"
            )
        (crate / "proofs" / f"E{i}.antt").write_text("\n".join(text))


def main():
    parser = argparse.ArgumentParser(description=__doc__.split("\n")[0])
    parser.add_argument("scratch", type=pathlib.Path)
    parser.add_argument("--seed", default="1")
    parser.add_argument("--calls", type=int, default=2000)
    parser.add_argument("--most", type=int, default=150)
    add_driver_option(parser)
    options = parser.parse_args()
    driver = Driver(options.driver)
    counts, made = examples(driver, options.seed, options.calls, options.most)
    driver.close()
    write_crate(options.scratch, made)
    print(f"seed {options.seed}:", ", ".join(f"{kind} {n}" for kind, n in counts.items()), flush=True)
    done = subprocess.run(["rt", "check"], cwd=options.scratch / "crates" / "compared")
    sys.exit(done.returncode)


if __name__ == "__main__":
    main()
