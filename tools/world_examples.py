#!/usr/bin/env python3
"""Writes a scratch crate in which examples are evaluated by the definitions of tap_world and tap_legal.

world_examples.py OUT runs SCENARIO.in ..      each run's text is NAME.out up to its report, and its trace is legal;
                                               beside NAME.in lie NAME.out and NAME.words (with `--seed N`, or none)
world_examples.py OUT changed EXAMPLES         the verdicts of changed_cases.py, on the traces in EXAMPLES/KIND/NAME.out

OUT/check.sh then reads the repository's crates as source and proves nothing but the theorems, in one to three minutes.
A theorem that doesn't hold is an error of OUT/crates/probe/proofs/Theorems.antt. Some 50 runs make one call.
"""
import glob
import os
import re
import sys

from changed_cases import CASES
from trace_terms import USES, term

REPOSITORY = os.path.dirname(os.path.dirname(os.path.abspath(__file__)))
CRATES = ["tap_ground", "tap_frame", "tap_ledger", "guest_mem", "vring_split", "vring_walk", "vhost_queue", "vring_drive",
          "ebpf_code", "ebpf_run", "tap_queues", "tap_flow_key", "tap_flows", "tap_steer", "vring_turns", "vhost_dev", "text_fields",
          "scen_words", "scen_text", "tap_trace", "trace_causes", "trace_words", "trace_text", "tap_world", "tap_legal"]
# definitions of the toolchain that a run opens
KIT = (["use Rattle.hex.specs.Hex as hex", "use Rattle.std.specs.Fmt as fmt"],
       ["hex.decode_pairs", "hex.encode_with", "fmt.digits", "lib.Count.ones"])

PLAYED = """-- Plays a scenario by a seed, and judges traces.
use Rattle.std.specs.Prelude.{ℕ, zero, suc, ◌+◌, List, [], ◌∷◌, ◌++◌, codes, decimal, Option, Some, None, Result, Ok, Err, option_map, option_and_then}
use Rattle.std.specs.Option.{option_map_or}
use Rattle.scen_text.specs.declared.scenario.Phase.{Phase}
use Rattle.scen_text.specs.declared.scenario.Scenario.{Scenario}
use Rattle.scen_text.specs.declared.fault.ScenFault.{ScenFault}
use Rattle.scen_text.specs.Refusals.{Said, said_of}
use Rattle.scen_text.specs.Scenario.{scenario_of}
use Rattle.tap_trace.specs.declared.trace.Trace.{Trace}
use Rattle.trace_text.specs.TraceText.{trace_text}
use Rattle.tap_world.specs.Setup.{Setup, setup_of}
use Rattle.tap_world.specs.World.{World}
use Rattle.tap_world.specs.Step.{step}
use Rattle.tap_world.specs.Runs.{begins, choices, moved_on, opening, picked}
use Rattle.tap_world.specs.Project.{project}
use Rattle.tap_legal.specs.declared.clause.Clause.{Clause}
use Rattle.tap_legal.specs.declared.clause.Clause.TheVariants as clause
use Rattle.tap_legal.specs.Verdict.{verdict}

-- x and the world after at most so many events of a phase
abbrev pub play : ℕ → Setup → ℕ → World → Option (ℕ × World)
play zero s x w = None
play (suc n) s x w =
    option_map_or (λ e. option_and_then (λ v. play n s (moved_on x) v.0) (step s w e)) (picked (moved_on x) (choices s w)) (Some (x, w))

abbrev pub play_phases : ℕ → Setup → ℕ → ℕ → List Phase → World → Option World
play_phases most s x number [] w = Some w
play_phases most s x number (p ∷ ps) w =
    option_and_then (λ v. play_phases most s v.0 (number + 1) ps v.1) (play most s x (begins number p w))

abbrev pub ended_in : Scenario → ℕ → Option World
ended_in s seed = play_phases 20000 (setup_of s) seed 0 s.phases (opening (setup_of s))

abbrev pub scenario_in : Result Said ScenFault → Option Scenario
scenario_in (Ok said) = Some (scenario_of said)
scenario_in (Err fault) = None

abbrev pub text_of : ℕ → Scenario → Option (List ℕ)
text_of seed s = option_map (λ w. trace_text (project (setup_of s) w)) (ended_in s seed)

-- the text of a run's trace, from the scenario's text
abbrev pub output : ℕ → List ℕ → Option (List ℕ)
output seed bytes = option_and_then (text_of seed) (scenario_in (said_of bytes))

abbrev pub letter : Clause → List ℕ
letter clause.A = codes "a"
letter clause.B = codes "b"
letter clause.C = codes "c"
letter clause.D = codes "d"
letter clause.E = codes "e"
letter clause.F = codes "f"
letter clause.G = codes "g"
letter clause.H = codes "h"

abbrev pub told : Option (Clause × ℕ) → List ℕ
told None = codes "legal"
told (Some v) = codes "illegal " ++ decimal v.1 ++ codes " " ++ letter v.0

abbrev pub judged_run : ℕ → Scenario → Option (List ℕ)
judged_run seed s = option_map (λ w. told (verdict s (project (setup_of s) w))) (ended_in s seed)

-- the verdict on the trace of a run, and on a trace
abbrev pub judgement : ℕ → List ℕ → Option (List ℕ)
judgement seed bytes = option_and_then (judged_run seed) (scenario_in (said_of bytes))

abbrev pub judged : List ℕ → Trace → Option (List ℕ)
judged bytes t = option_map (λ s. told (verdict s t)) (scenario_in (said_of bytes))
"""

FILES = {
    "crates.txt": "probe: sqlite_items hex thiserror byteorder clap\n",
    "crates/probe/src/lib.rt": """//! Examples, evaluated.
#![tactic(auto)]

ghost use Rattle.std.specs.Prelude.{◌≡◌};

/// One.
pub fn f() -> u8
    ensures { result ≡ 1 }
{
    1
}
""",
    "crates/probe/specs/Lib.antt": "pub mod Played\n",
    "crates/probe/specs/Played.antt": PLAYED,
    "crates/probe/proofs/Lib.antt": "pub mod Theorems\n",
    "crates/probe/proofs/f/Answers.antt": """use Rattle.std.proofs.Common.{refl}
use Rattle.probe.proofs.f.Goals as goal
use Rattle.probe.proofs.Theorems as theorems

pub returns : goal.returns
returns c = refl
""",
    "check.sh": "#!/bin/sh\ncd \"$(dirname \"$0\")/crates/probe\" && rt check --only f "
                + " ".join(f"--lib {c}={REPOSITORY}/crates/{c}/src/lib.rt" for c in CRATES) + "\n",
}


def unfoldables():
    """The `use` lines and the names of all definitions that a run may have to open."""
    uses, names = list(KIT[0]), list(KIT[1])
    for crate in CRATES:
        for path in sorted(glob.glob(f"{REPOSITORY}/crates/{crate}/specs/*.antt")):
            found = re.findall(r"^unfoldable pub (?!use )([^ ]+) ", open(path).read(), re.M)
            if found:
                word = f"u{len(uses)}"
                uses.append(f"use Rattle.{crate}.specs.{os.path.basename(path)[:-5]} as {word}")
                names += [f"{word}.{n}" for n in found]
    return uses, names


def literal(text):
    return text.replace("\\", "\\\\").replace('"', '\\"').replace("\n", "\\n")


def trace_of(path):
    text = open(path).read()
    return text[: text.find("\nreport\n") + 1]


def seed_of(path):
    words = open(path).read().split()
    return int(words[words.index("--seed") + 1]) if "--seed" in words else 0


def changed(trace, changes):
    """The text with some lines changed; a new text that ends with @ keeps the line's last field."""
    out = []
    for i, line in enumerate(trace.rstrip("\n").split("\n"), 1):
        new = changes.get(i, line)
        if new is not None:
            out.append(new[:-1] + line.rsplit(" ", 1)[1] if new.endswith("@") else new)
    return "\n".join(out) + "\n"


def theorem(name, statement, names):
    return ["", f"pub {name} : {statement}", "unfolding " + " ".join(names), f"{name} = refl"]


def runs(scenarios):
    uses, names = unfoldables()
    lines = ["use Rattle.std.specs.Prelude.{◌≡◌, refl, Some, codes}", "use Rattle.probe.specs.Played.{output, judgement}"] + uses
    for path in scenarios:
        base = path[:-3]
        name = "e_" + re.sub(r"\W", "_", "_".join(base.rsplit("/", 2)[1:]))
        run = f'{seed_of(base + ".words")} (codes "{literal(open(path).read())}")'
        lines += theorem(name, f'output {run} ≡ Some (codes "{literal(trace_of(base + ".out"))}")', names)
        lines += theorem(name + "_legal", f'judgement {run} ≡ Some (codes "legal")', names)
    return lines


def verdicts(examples):
    uses, names = unfoldables()
    lines = USES + ["use Rattle.probe.specs.Played.{judged}"] + uses
    for k, (example, changes, verdict) in enumerate(CASES):
        base = f"{examples}/{example}"
        trace = term(changed(trace_of(base + ".out"), changes))
        lines += ["", f"abbrev pub t{k} : Trace", f"t{k} = {trace}"]
        scenario = f'(codes "{literal(open(base + ".in").read())}")'
        lines += theorem(f"c{k}", f'judged {scenario} t{k} ≡ Some (codes "{verdict}")', names)
    return lines


def main():
    out, mode, rest = sys.argv[1], sys.argv[2], sys.argv[3:]
    files = dict(FILES)
    files["crates/probe/proofs/Theorems.antt"] = "\n".join(runs(rest) if mode == "runs" else verdicts(rest[0])) + "\n"
    for name, text in files.items():
        path = os.path.join(out, name)
        os.makedirs(os.path.dirname(path), exist_ok=True)
        open(path, "w").write(text)
    os.chmod(os.path.join(out, "check.sh"), 0o755)


if __name__ == "__main__":
    main()
