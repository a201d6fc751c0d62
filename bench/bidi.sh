#!/usr/bin/env bash
# Times the classes and the estimate on 1 MiB of mixed text, and the search for stray isolate controls on 1 MiB of
# initiators, of PDIs and of letters. Prints nanoseconds a character. Run it at any place: `bench/bidi.sh`.
set -eu
. "$(dirname "$0")/setup.sh"

begin bench_bidi soy_base esc_table bidi_class bidi_text <<'PROGRAM'
#![tactic(auto)]

use bidi_class::{Class, class_of};
use bidi_text::{estimate, marks};
use soy_base::Dir;
use std::alloc::{AllocError, Global};
use std::io;
use std::rt::Clock;
use std::time::Instant;

const MIXED: &str = "The quick brown fox, \u{5e9}\u{5dc}\u{5d5}\u{5dd} \u{5e2}\u{5d5}\u{5dc}\u{5dd}! 12,345.67 km; \u{645}\u{631}\u{62d}\u{628}\u{627} \u{6f1}\u{6f2} http://example.org/a?b=c \u{4e2d}\u{6587}\u{3002} caf\u{e9} \u{2067}na\u{ef}ve\u{2069} (50%) \u{20ac}9 \u{1f600}\n";

fn repeated(alloc: Global, piece: &str) -> Result<String, AllocError> {
    let mut text = String::new(alloc);
    for _ in 0..1_048_576u32 {
        if text.len() >= 1_048_576 {
            break;
        }
        text.push_str(piece)?;
    }
    Ok(text)
}

/// The least time of five runs, for each character of the text.
fn report<F: FnMut(&str) -> u64>(rt: &(impl Print + Clock), name: &str, text: &str, mut run: F) -> io::Result<()>
    requires { F.IsAlwaysCallable run }
{
    let mut best = u128::MAX;
    let mut answer = 0;
    for _ in 0..5u32 {
        let start = Instant::now(rt)?;
        answer = run(text);
        best = best.min(start.elapsed(rt)?.as_nanos());
    }
    let count = text.chars().count().max(1) as u128;
    let tenths = best.saturating_mul(10) / count;
    let whole = tenths / 10;
    let part = tenths % 10;
    println!(rt; "{name}: {whole}.{part} ns a character ({answer})")
}

fn main(rt: HostRuntime) -> io::Result<()> {
    let alloc = rt.alloc();
    let text = repeated(alloc, MIXED)?;
    report(&rt, "class_of, mixed text", text.as_str(), |text| {
        text.chars().filter(|c| class_of(*c) == Class::L).count() as u64
    })?;
    report(&rt, "estimate, mixed text", text.as_str(), |text| {
        u64::from(estimate(text, Dir::Rtl) == Dir::Rtl)
    })?;
    for (name, piece) in [
        ("marks, mixed text", MIXED),
        ("marks, letters", "a"),
        ("marks, letters of three bytes", "\u{4e2d}"),
        ("marks, U+2067", "\u{2067}"),
        ("marks, U+2069", "\u{2069}"),
    ] {
        let text = repeated(alloc, piece)?;
        report(&rt, name, text.as_str(), |text| match marks(alloc, text) {
            Ok(found) => found.places.items().len() as u64,
            Err(_) => 0,
        })?;
    }
    Ok(())
}
PROGRAM

measure bench_bidi
