#!/usr/bin/env bash
# Times a cursor on 1 MiB of plain letters, of words and of text with one special character in twenty: `fill` alone, and
# `begin` with it, into rooms of 4,096 bytes; beside `escape` (`wrap` where the text is wrapped) and a copy of the same
# text. Prints MiB of the text a second. Run it from anywhere: `bench/value_cursor.sh`.
set -eu
. "$(dirname "$0")/setup.sh"

begin bench_value_cursor soy_base esc_table script_state escapers bidi_class bidi_text value_cursor <<'PROGRAM'
#![tactic(auto)]

ghost use Rattle.value_cursor.specs.BytesLeft.{CursorFits};

use bidi_text::wrap;
use escapers::{Escaper, escape, escaper_for};
use soy_base::{Dir, Place, ValueClass};
use std::alloc::{AllocError, Global};
use std::io;
use std::rt::Clock;
use std::time::Instant;
use value_cursor::Cursor;

const MIB: u32 = 1_048_576;

fn repeated(alloc: Global, piece: &str) -> Result<String, AllocError> {
    let mut text = String::new(alloc);
    for _ in 0..MIB {
        if text.len() >= MIB as usize {
            break;
        }
        text.push_str(piece)?;
    }
    Ok(text)
}

/// The length of the text as it is escaped at a place; 0 where none is made there.
fn escaped_len(alloc: Global, place: Place, text: &str) -> usize {
    let Some(how) = escaper_for(place, ValueClass::Text) else {
        return 0;
    };
    match how {
        Escaper::AsIs => 0,
        Escaper::Wrap => match wrap(alloc, text, Dir::Ltr) {
            Ok(out) => out.len(),
            Err(_) => 0,
        },
        _ => match escape(alloc, how, ValueClass::Text, text, Dir::Ltr) {
            Ok(out) => out.len(),
            Err(_) => 0,
        },
    }
}

fn copied_len(alloc: Global, text: &str) -> usize {
    match String::from_str(alloc, text) {
        Ok(out) => out.len(),
        Err(_) => 0,
    }
}

/// The bytes of all calls of `fill`, at most so many.
fn fill_all(cursor: &mut Cursor, text: &str, room: &mut [u8], calls: u32) -> usize
    requires { CursorFits cursor.old text.now }
{
    if calls == 0 {
        return 0;
    }
    let count = cursor.fill(text, room);
    if count == 0 {
        return 0;
    }
    count.saturating_add(fill_all(cursor, text, room, calls - 1))
}

/// The nanoseconds of `begin` and of all calls of `fill`, and the bytes given.
fn filled(rt: &(impl Print + Clock), alloc: Global, place: Place, text: &str) -> io::Result<(u128, u128, usize)> {
    let mut room = [0; 4096];
    let Some(how) = escaper_for(place, ValueClass::Text) else {
        return Ok((0, 0, 0));
    };
    match how {
        Escaper::AsIs => Ok((0, 0, 0)),
        _ => {
            let start = Instant::now(rt)?;
            let Ok(mut cursor) = Cursor::begin(alloc, how, ValueClass::Text, text, Dir::Ltr) else {
                return Ok((0, 0, 0));
            };
            let begun = start.elapsed(rt)?.as_nanos();
            let start = Instant::now(rt)?;
            let len = fill_all(&mut cursor, text, &mut room, MIB);
            Ok((begun, start.elapsed(rt)?.as_nanos(), len))
        }
    }
}

fn rate(text: &str, nanos: u128) -> u128 {
    1_000_000_000u128 * text.len() as u128 / nanos.max(1) / MIB as u128
}

/// The least time of nine runs.
fn best<F: FnMut(&str) -> usize>(rt: &(impl Print + Clock), text: &str, mut run: F) -> io::Result<u128>
    requires { F.IsAlwaysCallable run }
{
    let mut best = u128::MAX;
    let mut len = 0usize;
    for _ in 0..9u32 {
        let start = Instant::now(rt)?;
        len = len.wrapping_add(run(text));
        best = best.min(start.elapsed(rt)?.as_nanos());
    }
    if len == 0 {
        println!(rt; "nothing was made")?;
    }
    Ok(best)
}

fn report(rt: &(impl Print + Clock), alloc: Global, name: &str, place: Place, of: &str, text: &str) -> io::Result<()> {
    let whole = best(rt, text, |text| escaped_len(alloc, place, text))?;
    let mut begin = u128::MAX;
    let mut fill = u128::MAX;
    let mut len = 0;
    for _ in 0..9u32 {
        let (begun, given, bytes) = filled(rt, alloc, place, text)?;
        begin = begin.min(begun);
        fill = fill.min(given);
        len = bytes;
    }
    let whole_rate = rate(text, whole);
    let fill_rate = rate(text, fill);
    let both_rate = rate(text, begin.saturating_add(fill));
    println!(rt; "{name}, {of}: whole {whole_rate}, fill {fill_rate}, begin and fill {both_rate} MiB a second ({len} bytes)")
}

fn main(rt: HostRuntime) -> io::Result<()> {
    let alloc = rt.alloc();
    for (of, piece) in [
        ("plain letters", "a"),
        ("words", "Ten words, no more. "),
        ("one special in twenty", "Ten words & no more."),
        ("letters of two bytes", "\u{5d0}"),
        ("lines", "Ten words, no more.\n"),
    ] {
        let text = repeated(alloc, piece)?;
        let copied = best(&rt, text.as_str(), |text| copied_len(alloc, text))?;
        let copied_rate = rate(text.as_str(), copied);
        println!(rt; "a copy, {of}: {copied_rate} MiB a second")?;
        for (name, place) in [
            ("Wrap", Place::Text),
            ("Html", Place::Attr),
            ("UriNormal", Place::UriPath),
            ("UriComponent", Place::UriQuery),
            ("JsString", Place::JsSingle),
            ("JsValue", Place::JsValue),
            ("CssString", Place::CssString),
            ("Plain", Place::Plain),
        ] {
            report(&rt, alloc, name, place, of, text.as_str())?;
        }
    }
    Ok(())
}
PROGRAM

mkdir -p "$work/crates/bench_value_cursor/proofs/+fill_all"
cat >"$work/crates/bench_value_cursor/proofs/+fill_all/Invariants.antt" <<'PROOF'
use Rattle.bench_value_cursor.proofs.+fill_all.Given as goal

abbrev pub decreases-fill_all : goal.decreases-fill_all
decreases-fill_all l = l.calls
PROOF

measure bench_value_cursor
