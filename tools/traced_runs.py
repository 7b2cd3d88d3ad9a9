#!/usr/bin/env python3
"""Writes a scratch repository with a program that reads traces and what follows them.

traced_runs.py OUT NAME.out ..     beside each NAME.out lies its scenario, NAME.in

OUT/try.sh runs the program by `rt try`, which proves nothing, on all texts that begin with a trace: it prints a line for
each one, whether its trace is printed again from what was read, and whether what follows is the report of the trace, as
text or as a line of JSON. In OUT/crates/traced_runs `rt run -- time NAME ..` proves and builds the program, and prints the
microseconds of reading, printing and reporting as well.
"""
import os
import re
import shutil
import sys

REPOSITORY = os.path.dirname(os.path.dirname(os.path.abspath(__file__)))
LINE = "traced_runs: anyhow scen_text tap_report tap_trace trace_text\n"

MAIN = """//! Reads what was written for scenarios. The arguments are names: of the scenario `NAME.in` and of the text `NAME.out`.
#![tactic(auto)]

mod run;

use crate::run::{Seen, see};
use anyhow::Result;
use std::rt::{Clock, Files};
use std::{env, fs};

// Reads a run, and prints what was seen of it.
fn show<R: Print + AllocGlobal + Files + Clock>(rt: &R, name: &str, timed: bool) -> Result<()> {
    let scenario = format!(in rt.alloc(); "{name}.in")?;
    let written = format!(in rt.alloc(); "{name}.out")?;
    let given = fs::read(rt, scenario.as_str())?;
    let text = fs::read(rt, written.as_str())?;
    let Seen {
        again,
        reported,
        times,
    } = see(rt, &given, &text)?;
    println!(rt; "{name}: printed again {again}, reported {reported}")?;
    if timed {
        let bytes = text.len();
        println!(rt; "{bytes} bytes, microseconds: {times:?}")?;
    }
    Ok(())
}

fn main(rt: HostRuntime) -> Result<()> {
    let mut timed = false;
    for word in env::args(&rt)?.skip(1) {
        if word.as_str() == "time" {
            timed = true;
        } else {
            show(&rt, word.as_str(), timed)?;
        }
    }
    Ok(())
}
"""

RUN = """//! What was written for a scenario: a trace, and behind it its report.

use anyhow::{Context, Result, bail};
use scen_text::{Scenario, read_scenario};
use std::alloc::Global;
use std::rt::Clock;
use std::time::Instant;
use tap_report::{may_follow, report};
use tap_trace::Trace;
use trace_text::{MAX_BYTES, print_trace, read_trace, split_input};

/// How long the parts took, in microseconds.
#[derive(Clone, Copy, Debug, Default)]
pub struct Times {
    pub read: u128,
    pub printed: u128,
    pub reported: u128,
}

/// What was seen of a run: whether the trace has this text again, whether its report follows and not nothing.
#[derive(Clone, Copy, Debug)]
pub struct Seen {
    pub again: bool,
    pub reported: bool,
    pub times: Times,
}

// The trace of a text.
fn trace_of(alloc: Global, text: &[u8]) -> Result<Trace> {
    if text.len() > MAX_BYTES {
        bail!("a trace that is too long")
    }
    read_trace(alloc, text).ok().context("no trace")
}

// Whether the report of a trace follows it.
fn is_followed(alloc: Global, scenario: &Scenario, trace: &Trace, behind: &[u8]) -> Result<bool> {
    let summary = report(alloc, scenario, trace)?;
    let follows = may_follow(alloc, &summary, behind)?;
    Ok(follows && !behind.is_empty())
}

/// Reads a scenario and what was written for it.
pub fn see<R: AllocGlobal + Clock>(rt: &R, given: &[u8], written: &[u8]) -> Result<Seen> {
    let scenario = read_scenario(rt.alloc(), given)
        .ok()
        .context("no scenario")?;
    let parts = split_input(written);
    let mut times = Times::default();
    let start = Instant::now(rt)?;
    let trace = trace_of(rt.alloc(), parts.trace)?;
    times.read = start.elapsed(rt)?.as_micros();
    let start = Instant::now(rt)?;
    let text = print_trace(rt.alloc(), &trace)?;
    times.printed = start.elapsed(rt)?.as_micros();
    let again = parts.scenario.is_empty() && text.as_bytes() == parts.trace;
    let start = Instant::now(rt)?;
    let reported = is_followed(rt.alloc(), &scenario, &trace, parts.behind)?;
    times.reported = start.elapsed(rt)?.as_micros();
    Ok(Seen {
        again,
        reported,
        times,
    })
}
"""


def write(path, text):
    os.makedirs(os.path.dirname(path), exist_ok=True)
    with open(path, "w", encoding="utf-8") as it:
        it.write(text)


def begins_with_trace(path):
    with open(path, "rb") as it:
        return it.read(11) == b"taptrace 1\n"


def main():
    out, texts = os.path.abspath(sys.argv[1]), [it for it in sys.argv[2:] if begins_with_trace(it)]
    shutil.copytree(f"{REPOSITORY}/crates", f"{out}/crates", ignore=shutil.ignore_patterns("out"))
    with open(f"{REPOSITORY}/crates.txt", encoding="utf-8") as it:
        write(f"{out}/crates.txt", it.read() + LINE)
    write(f"{out}/crates/traced_runs/src/main.rt", MAIN)
    write(f"{out}/crates/traced_runs/src/run.rt", RUN)
    words, names = [], []
    for text in texts:
        base = os.path.abspath(text)[:-4]
        name = re.sub(r"\W", "_", "_".join(base.rsplit("/", 2)[1:]))
        words += [f"--data {name}.in={base}.in", f"--data {name}.out={base}.out"]
        names.append(name)
    command = " \\\n    ".join(["rt try", *words, "--", *names])
    write(f"{out}/try.sh", f'#!/bin/sh\ncd "$(dirname "$0")/crates/traced_runs" && {command}\n')
    os.chmod(f"{out}/try.sh", 0o755)


if __name__ == "__main__":
    main()
