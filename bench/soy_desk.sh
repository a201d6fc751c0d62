#!/usr/bin/env bash
# Renders the page of the workload of a number (a list of 4,000 items) 64 times by a program that is made here: once
# with 64 renderings open on a desk, pulled in turn until a room of 4,096 bytes is full, once one page after the other with
# a rendering of its own each. Prints the microseconds a page of both, the least of five runs, and how much more memory of
# the system the open renderings take at most beside their inputs (nothing where what was freed before suffices). Run it
# from anywhere: `bench/soy_desk.sh`.
set -eu
. "$(dirname "$0")/setup.sh"

begin bench_soy_desk soy_base esc_table bidi_class plural_rules script_state soy_lexer bidi_text soy_tree work_gen \
    escapers html_state soy_types icu_text expr_parser msg_extract soy_expr value_cursor soy_meaning soy_parser \
    soy_check msg_bundle template_ir render_core soy_desk html_context ir_build soy_front \
    soy_rules \
    soy_pieces <<'PROGRAM'
#![tactic(auto)]

ghost use Rattle.std.specs.Prelude.{◌≡◌, ◌<◌};

use render_core::Rendering;
use soy_base::{Seq, Steps, Text};
use soy_desk::Desk;
use soy_front::{Compiled, Source, compile};
use soy_tree::Value;
use soy_types::read_data;
use std::alloc::Global;
use std::marker::Brand;
use std::rc::Rc;
use std::rt::{Clock, Files};
use std::sync::ledger::{Blank, Ledger};
use std::time::Instant;
use std::{fs, io};
use template_ir::Program;

const PAGES: usize = 64;

/// The files of the workload as a program.
fn compiled(alloc: Global, text: &Text) -> Option<Compiled> {
    let name = Text::new(String::from_str(alloc, "gen.soy").ok()?);
    let bytes = Seq::new(Vec::from_slice(alloc, text.text().as_bytes()).ok()?);
    let sources = Vec::from_array(alloc, [Source { name, bytes }]).ok()?;
    compile(alloc, sources.as_slice(), None).ok()
}

/// The same input for each page.
fn inputs(alloc: Global, compiled: &Compiled, json: &Text, number: usize) -> Option<Vec<Value>> {
    let mut inputs = Vec::with_capacity(alloc, PAGES).ok()?;
    for _ in 0..PAGES {
        let input = read_data(alloc, json.text().as_bytes(), compiled.typed.params(number)).ok()?;
        inputs.push(input).ok()?;
    }
    Some(inputs)
}

/// A rendering is opened for each input; the names.
fn opened(alloc: Global, desk: &mut Desk, inputs: Vec<Value>, number: usize) -> Option<Vec<u64>> {
    let mut names = Vec::with_capacity(alloc, PAGES).ok()?;
    for input in inputs {
        if desk.opened() == u64::MAX {
            return None;
        }
        names.push(desk.open(input, number).ok()?).ok()?;
    }
    Some(names)
}

/// The number of bytes that pulls of a rendering put into a room until it is full or nothing is to come.
fn filled<L: Ledger>(desk: &mut Desk, name: u64, room: &mut [u8], steps: &mut Steps<L>) -> Option<usize> {
    let mut count = 0usize;
    for _ in 0..room.len() {
        let rest = room.get_mut(count..)?;
        match desk.pull(name, rest, steps) {
            Ok(0) => return Some(count),
            Ok(n) => count = count.saturating_add(n),
            Err(_) => return None,
        }
    }
    Some(count)
}

/// A room of each; the number of bytes that they give.
fn one_round<L: Ledger>(desk: &mut Desk, names: &[u64], room: &mut [u8], steps: &mut Steps<L>) -> Option<usize> {
    let mut count = 0usize;
    for name in names {
        count = count.saturating_add(filled(desk, *name, room, steps)?);
    }
    Some(count)
}

/// So many rounds, or fewer where the pages end before; the number of bytes.
fn rounds<L: Ledger>(
    desk: &mut Desk,
    names: &[u64],
    room: &mut [u8],
    most: u64,
    blank: Blank,
) -> Option<usize>
    requires name { blank.name ≡ L.name }
    requires parts { blank.parts ≡ L.parts }
    requires some { 0 < blank.parts }
{
    let mut steps = Steps::<L>::new(blank);
    let mut count = 0usize;
    for _ in 0..most {
        let given = one_round(desk, names, room, &mut steps)?;
        if given == 0 {
            return Some(count);
        }
        count = count.saturating_add(given);
    }
    Some(count)
}

/// The number of bytes that all pages give, pulled in turn.
fn in_turn(alloc: Global, program: &Rc<Program>, inputs: Vec<Value>, number: usize) -> Option<usize> {
    let mut room = [0u8; 4096];
    let mut desk = Desk::new(alloc, program.clone().ok()?).ok()?;
    let names = opened(alloc, &mut desk, inputs, number)?;
    rounds::<Brand>(&mut desk, names.as_slice(), room.as_mut_slice(), u64::MAX, Blank::new(1))
}

/// The number of bytes that the pulls of a page give.
fn pulled<L: Ledger>(
    alloc: Global,
    program: &Program,
    input: &Value,
    number: usize,
    room: &mut [u8],
    blank: Blank,
) -> Option<usize>
    requires name { blank.name ≡ L.name }
    requires parts { blank.parts ≡ L.parts }
    requires some { 0 < blank.parts }
{
    let mut steps = Steps::<L>::new(blank);
    let mut rendering = Rendering::begin(alloc, program, input, number).ok()?;
    let mut count = 0usize;
    for _ in 0..u64::MAX {
        match rendering.pull(program, input, room, &mut steps) {
            Ok(0) => return Some(count),
            Ok(n) => count = count.saturating_add(n),
            Err(_) => return None,
        }
    }
    None
}

/// The number of bytes that all pages give, one after the other.
fn one_by_one(alloc: Global, program: &Program, inputs: Vec<Value>, number: usize) -> Option<usize> {
    let mut room = [0u8; 4096];
    let mut count = 0usize;
    for input in inputs {
        let given = pulled::<Brand>(alloc, program, &input, number, room.as_mut_slice(), Blank::new(1))?;
        count = count.saturating_add(given);
    }
    Some(count)
}

/// The least times of five runs of both.
fn times(
    rt: &(impl Print + Clock),
    alloc: Global,
    compiled: &Compiled,
    program: &Rc<Program>,
    json: &Text,
    number: usize,
) -> io::Result<()> {
    let mut turns = u128::MAX;
    let mut single = u128::MAX;
    let mut bytes = 0usize;
    let mut other_bytes = 0usize;
    for _ in 0..5u32 {
        if let Some(inputs) = inputs(alloc, compiled, json, number) {
            let start = Instant::now(rt)?;
            other_bytes = one_by_one(alloc, program.as_ref(), inputs, number).unwrap_or(0);
            single = single.min(start.elapsed(rt)?.as_nanos());
        }
        if let Some(inputs) = inputs(alloc, compiled, json, number) {
            let start = Instant::now(rt)?;
            bytes = in_turn(alloc, program, inputs, number).unwrap_or(0);
            turns = turns.min(start.elapsed(rt)?.as_nanos());
        }
    }
    let ratio = turns.saturating_mul(100) / single.max(1);
    let (turns, single) = (turns / 64000, single / 64000);
    let same = bytes == other_bytes;
    println!(rt; "64 pages, {bytes} bytes, as many one by one {same}: in turn {turns} us a page, one by one {single} us; {ratio} % of its time")
}

/// The kB of a line of the process's status.
fn status(rt: &(impl Files + AllocGlobal), name: &str) -> io::Result<u64> {
    let text = fs::read_to_string(rt, "/proc/self/status")?;
    for line in text.as_str().lines() {
        if let Some(rest) = line.strip_prefix(name) {
            for word in rest.split_whitespace() {
                if let Ok(number) = word.parse::<u64>() {
                    return Ok(number);
                }
            }
        }
    }
    Ok(0)
}

/// The memory that 64 open renderings take at most beside their inputs, pulled in turn.
fn memory(
    rt: &(impl Print + Files + AllocGlobal),
    compiled: &Compiled,
    program: &Rc<Program>,
    json: &Text,
    number: usize,
) -> io::Result<()> {
    let alloc = rt.alloc();
    let Some(inputs) = inputs(alloc, compiled, json, number) else {
        return Ok(());
    };
    fs::write(rt, "/proc/self/clear_refs", "5")?;
    let before = status(rt, "VmRSS:")?;
    let bytes = in_turn(alloc, program, inputs, number).unwrap_or(0);
    let taken = status(rt, "VmHWM:")?.saturating_sub(before);
    let bytes_each = taken.saturating_mul(1024) / 64;
    println!(rt; "64 open renderings, {bytes} bytes: {before} kB before, {taken} kB more at most, {bytes_each} bytes a rendering")
}

fn main(rt: HostRuntime) -> io::Result<()> {
    let alloc = rt.alloc();
    let Ok(work) = work_gen::make(alloc, 7) else {
        return println!(rt; "out of memory");
    };
    let Some(text) = work.sources.items().first() else {
        return println!(rt; "no source");
    };
    let (Some(first), Some(again)) = (compiled(alloc, text), compiled(alloc, text)) else {
        return println!(rt; "refused");
    };
    let Some(number) = first.entry(work.entry.text()) else {
        return println!(rt; "no template");
    };
    let Compiled { program, .. } = again;
    let Ok(program) = Rc::new(alloc, program) else {
        return println!(rt; "out of memory");
    };
    memory(&rt, &first, &program, &work.json, number)?;
    times(&rt, alloc, &first, &program, &work.json, number)
}
PROGRAM

crate="$work/crates/bench_soy_desk"
mkdir -p "$crate/proofs/pulled" "$crate/proofs/in_turn" "$crate/proofs/one_by_one"
cat >"$crate/proofs/pulled/Invariants.antt" <<'PROOF'
use Rattle.soy_tree.specs.ViewValues.{view_value}
use Rattle.render_core.specs.Rest.{Fits}
use Rattle.bench_soy_desk.proofs.pulled.Given as goal

abbrev pub invariant-loop : goal.invariant-loop
invariant-loop g l = Fits l.program (view_value l.input) l.rendering
PROOF

cat >"$crate/proofs/in_turn/Invariants.antt" <<'PROOF'
use Rattle.bench_soy_desk.proofs.in_turn.Given as goal

abbrev pub ghosts-rounds : goal.ghosts-rounds
ghosts-rounds a = record { name = a.blank.name; parts = a.blank.parts }
PROOF
cat >"$crate/proofs/one_by_one/Invariants.antt" <<'PROOF'
use Rattle.bench_soy_desk.proofs.one_by_one.Given as goal

abbrev pub ghosts-pulled : goal.ghosts-pulled
ghosts-pulled a = record { name = a.blank.name; parts = a.blank.parts }
PROOF

measure bench_soy_desk
