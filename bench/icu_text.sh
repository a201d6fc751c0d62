#!/usr/bin/env bash
# Times `parse_message` on patterns of 512 KiB and of 4 MiB: on one like a translation, and on shapes of one kind alone,
# which would show work that grows faster than the text. Prints MiB of the text a second. Run it from any folder:
# `bench/icu_text.sh`.
set -eu
. "$(dirname "$0")/setup.sh"

begin bench_icu_text soy_base plural_rules soy_tree icu_text \
    soy_rules <<'PROGRAM'
#![tactic(auto)]

use icu_text::parse_message;
use std::alloc::{AllocError, Global};
use std::io;
use std::rt::Clock;
use std::time::Instant;

const MIB: usize = 1_048_576;

const TRANSLATION: &str = "In {START_LINK}the cart of {NAME}{END_LINK} {N, plural, =0 {there's nothing} one {lies # piece} \
    other {lie # pieces, {KIND, select, gift {wrapped as '{'gifts'}'} other {unwrapped}}}}. ";

/// As many whole pieces as so many bytes have room for, between two ends.
fn repeated(alloc: Global, size: usize, prefix: &str, piece: &str, suffix: &str) -> Result<String, AllocError> {
    let most = size.saturating_sub(piece.len()).saturating_sub(suffix.len());
    let mut text = String::from_str(alloc, prefix)?;
    for _ in 0..size {
        if text.len() > most {
            break;
        }
        text.push_str(piece)?;
    }
    text.push_str(suffix)?;
    Ok(text)
}

/// The least time of three runs.
fn report(rt: &(impl Print + Clock), alloc: Global, name: &str, text: &str) -> io::Result<()> {
    let mut best = u128::MAX;
    let mut read = false;
    for _ in 0..3u32 {
        let start = Instant::now(rt)?;
        let parts = parse_message(alloc, text);
        best = best.min(start.elapsed(rt)?.as_nanos());
        read = parts.is_ok();
    }
    let rate = 1_000_000_000u128 * text.len() as u128 / best.max(1) / MIB as u128;
    let micros = best / 1000;
    let kib = text.len() / 1024;
    let kind = if read { "pattern" } else { "refused" };
    println!(rt; "{name}, {kib} KiB: {rate} MiB a second ({micros} us, {kind})")
}

fn main(rt: HostRuntime) -> io::Result<()> {
    let alloc = rt.alloc();
    for (name, prefix, piece, suffix) in [
        ("translation", "", TRANSLATION, ""),
        ("plain text", "", "Ten words, and no more. ", ""),
        ("arguments", "", "{A}", ""),
        ("quoted text", "'{", "a", "'"),
        ("apostrophes", "", "''", ""),
        ("one name", "{", "a", "}"),
        ("white space", "{A", " ", "}"),
        ("one number", "{A,plural,=", "0", "{}other{}}"),
        ("numbers", "{A,plural,other{", "#", "}}"),
        ("arms of one key", "{A,plural,", "=1{}", "other{}}"),
        ("one word", "{A,select,", "a", "{}other{}}"),
        ("no pattern", "", "a", "{"),
    ] {
        for size in [MIB / 2, 4 * MIB] {
            let text = repeated(alloc, size, prefix, piece, suffix)?;
            report(&rt, alloc, name, text.as_str())?;
        }
    }
    Ok(())
}
PROGRAM

measure bench_icu_text
