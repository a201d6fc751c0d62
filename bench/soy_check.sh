#!/usr/bin/env bash
# Times `check` on files of 250 KiB and of 1,000 KiB: parameters that are printed, lets that are printed, one call with
# a param for each of many parameters, calls of a template with as many parameters that need no param, calls of many
# templates, and ifs in ifs. Prints the nanoseconds a byte; where they grow with the file, the check isn't linear. Run
# it from any folder: `bench/soy_check.sh`.
set -eu
. "$(dirname "$0")/setup.sh"

begin bench_soy_check soy_base plural_rules soy_lexer soy_tree expr_parser soy_parser soy_expr soy_check \
    soy_rules <<'PROGRAM'
#![tactic(auto)]

ghost use Rattle.std.specs.Prelude.{◌≡◌, true, IfOk};
ghost use Rattle.soy_tree.specs.Formed.{is_formed_tree};
ghost use Rattle.soy_tree.specs.ViewTrees.{view_tree};

use soy_base::{Fault, Refusal};
use soy_check::check;
use soy_lexer::lex;
use soy_parser::parse;
use soy_tree::Tree;
use std::alloc::{AllocError, Global};
use std::io;
use std::rt::Clock;
use std::time::Instant;

/// The tree of a file, or its first fault.
#[tactic(auto, using(crate::proofs::FormedTrees::parsed_formed))]
fn tree(alloc: Global, text: &str) -> Result<Tree, Refusal<Fault>>
    ensures { IfOk result (λ tree. is_formed_tree (view_tree tree) ≡ true) }
{
    match lex(alloc, text, 0) {
        Ok(tokens) => parse(alloc, tokens.as_slice(), 0),
        Err(refusal) => Err(refusal),
    }
}

/// The number of the first name.
const FIRST: u32 = 10_000;

const IF: &str = "{if $x}{if $x}{if $x}{if $x}{if $x}{if $x}{if $x}{if $x}{if $x}{if $x}";
const END: &str = "{/if}{/if}{/if}{/if}{/if}{/if}{/if}{/if}{/if}{/if}";

/// So many pieces, in each of which the second text stands between the number and the third.
fn numbered(
    alloc: Global,
    text: &mut String,
    count: u32,
    (before, after): (&str, &str),
) -> Result<(), AllocError> {
    for number in FIRST..FIRST.saturating_add(count) {
        let number = format!(in alloc; "{number}")?;
        text.push_str(before)?;
        text.push_str(number.as_str())?;
        text.push_str(after)?;
    }
    Ok(())
}

/// A template with so many pieces of each of two kinds, and what stands between them.
fn two_kinds(
    alloc: Global,
    count: u32,
    first: (&str, &str),
    between: &str,
    second: (&str, &str),
) -> Result<String, AllocError> {
    let mut text = String::from_str(alloc, "{namespace n}{template m}")?;
    numbered(alloc, &mut text, count, first)?;
    text.push_str(between)?;
    numbered(alloc, &mut text, count, second)?;
    Ok(text)
}

/// Templates that call one before them.
fn templates(alloc: Global, count: u32) -> Result<String, AllocError> {
    let mut text = String::from_str(alloc, "{namespace n}")?;
    for own in FIRST..FIRST.saturating_add(count) {
        let called = FIRST / 2 + own / 2;
        let one = format!(in alloc; "{{template t{own}}}{{call t{called} /}}{{/template}}")?;
        text.push_str(one.as_str())?;
    }
    Ok(text)
}

/// Fifty ifs, one in the other, again and again.
fn ifs(alloc: Global, count: u32) -> Result<String, AllocError> {
    let mut text = String::from_str(alloc, "{namespace n}{template m}{@param? x: int}")?;
    for _ in 0..count {
        for _ in 0..5u32 {
            text.push_str(IF)?;
        }
        text.push_str("{$x}")?;
        for _ in 0..5u32 {
            text.push_str(END)?;
        }
    }
    text.push_str("{/template}")?;
    Ok(text)
}

/// The least time of three runs.
fn report(rt: &(impl Print + Clock), alloc: Global, name: &str, text: &str) -> io::Result<()> {
    let mut best = u128::MAX;
    let mut is_typed = false;
    for _ in 0..3u32 {
        let Ok(tree) = tree(alloc, text) else {
            return println!(rt; "{name}: no tree");
        };
        let mut trees = Vec::new(alloc);
        if trees.push(tree).is_err() {
            return println!(rt; "out of memory");
        }
        let start = Instant::now(rt)?;
        is_typed = check(alloc, trees).is_ok();
        best = best.min(start.elapsed(rt)?.as_nanos());
    }
    let answer = if is_typed { "typed" } else { "refused" };
    let bytes = text.len();
    let each = best / (bytes as u128).max(1);
    println!(rt; "{name}, {bytes} bytes: {each} ns a byte ({answer})")
}

fn main(rt: HostRuntime) -> io::Result<()> {
    let alloc = rt.alloc();
    let callee = "{/template}{template c}";
    for size in [250 * 1024u32, 1_000 * 1024] {
        let mut text = two_kinds(alloc, size / 29, ("{@param a", ": int}"), "", ("{$a", "}"))?;
        text.push_str("{/template}")?;
        report(&rt, alloc, "parameters", text.as_str())?;
        let mut text = two_kinds(alloc, size / 27, ("{let $a", ": 1 /}"), "", ("{$a", "}"))?;
        text.push_str("{/template}")?;
        report(&rt, alloc, "lets", text.as_str())?;
        let between = "{/template}{template c}{call m}";
        let mut text = two_kinds(alloc, size / 39, ("{@param a", ": int}"), between, ("{param a", ": 1 /}"))?;
        text.push_str("{/call}{/template}")?;
        report(&rt, alloc, "one call", text.as_str())?;
        let mut text = two_kinds(alloc, size / 36, ("{@param? a", ": int}"), callee, ("{call m /}", ""))?;
        text.push_str("{/template}")?;
        report(&rt, alloc, "calls without params", text.as_str())?;
        let text = templates(alloc, size / 43)?;
        report(&rt, alloc, "calls of templates", text.as_str())?;
        let text = ifs(alloc, size / 604)?;
        report(&rt, alloc, "ifs", text.as_str())?;
    }
    Ok(())
}
PROGRAM

mkdir -p "$work/crates/bench_soy_check/proofs"
cp "$top/crates/program_tests/proofs/"*.antt "$work/crates/bench_soy_check/proofs/"
measure bench_soy_check
