#!/usr/bin/env bash
# Times `read_bundle` on bundles of 512 KiB and of 4 MiB: with many translations whose ids the catalogue has, with ids
# that it lacks, and with one long translation. Prints MiB of the bundle a second. Run it from any folder:
# `bench/msg_bundle.sh`.
set -eu
. "$(dirname "$0")/setup.sh"

begin bench_msg_bundle soy_base plural_rules soy_tree icu_text msg_extract msg_bundle \
    soy_rules <<'PROGRAM'
#![tactic(auto)]

use msg_bundle::read_bundle;
use msg_extract::{Catalogue, Listed};
use soy_base::{OutOfMemory, Seq, Text};
use std::alloc::Global;
use std::io;
use std::rt::Clock;
use std::time::Instant;

const MIB: usize = 1_048_576;

const TRANSLATION: &str = "In the cart of {NAME} {N, plural, =0 {there is nothing} one {lies # piece} \
    other {lie # pieces, {KIND, select, gift {wrapped} other {unwrapped}}}}. ";

fn text(alloc: Global, text: &str) -> Result<Text, OutOfMemory> {
    Ok(Text::new(String::from_str(alloc, text)?))
}

fn one_text(alloc: Global, name: &str) -> Result<Seq<Text>, OutOfMemory> {
    let mut texts = Vec::new(alloc);
    texts.push(text(alloc, name)?)?;
    Ok(Seq::new(texts))
}

/// The id of a number: decimal digits, scattered so that ids don't ascend with it.
fn id_of(alloc: Global, number: u64) -> Result<String, OutOfMemory> {
    Ok(number.wrapping_mul(0x9e37_79b9_7f4a_7c15).to_string(alloc)?)
}

fn row(alloc: Global, number: u64) -> Result<Listed, OutOfMemory> {
    Ok(Listed {
        id: Text::new(id_of(alloc, number)?),
        desc: Text::empty(alloc),
        meaning: Text::empty(alloc),
        text: Text::empty(alloc),
        placeholders: one_text(alloc, "NAME")?,
        plurals: one_text(alloc, "N")?,
        selects: one_text(alloc, "KIND")?,
    })
}

fn catalogue(alloc: Global, rows: u64) -> Result<Catalogue, OutOfMemory> {
    let mut messages = Vec::new(alloc);
    for number in 0..rows {
        messages.push(row(alloc, number)?)?;
    }
    Ok(Catalogue { messages: Seq::new(messages) })
}

/// A bundle of about so many bytes, whose translations have so many times the text, under the ids from a number on.
fn bundle(alloc: Global, size: usize, times: usize, from: u64) -> Result<String, OutOfMemory> {
    let mut out = String::from_str(alloc, "{\"dir\":\"ltr\",\"plural\":{\"one\":\"i = 0,1\"},\"messages\":{")?;
    let piece = TRANSLATION.len().saturating_mul(times).saturating_add(26);
    let count = (size / piece).max(1) as u64;
    for number in 0..count {
        if number > 0 {
            out.push(',')?;
        }
        out.push('"')?;
        out.push_str(id_of(alloc, from.wrapping_add(number))?.as_str())?;
        out.push_str("\":\"")?;
        for _ in 0..times {
            out.push_str(TRANSLATION)?;
        }
        out.push('"')?;
    }
    out.push_str("}}")?;
    Ok(out)
}

/// The least time of three runs.
fn report(rt: &(impl Print + Clock + AllocGlobal), name: &str, text: &str, catalogue: &Catalogue) -> io::Result<()> {
    let alloc = rt.alloc();
    let mut best = u128::MAX;
    let mut found = 0;
    for _ in 0..3u32 {
        let start = Instant::now(rt)?;
        let read = read_bundle(alloc, text.as_bytes(), catalogue);
        best = best.min(start.elapsed(rt)?.as_nanos());
        if let Ok(bundle) = read {
            found = bundle.messages.items().len();
        }
    }
    let rate = 1_000_000_000u128 * text.len() as u128 / best.max(1) / MIB as u128;
    let micros = best / 1000;
    let kib = text.len() / 1024;
    println!(rt; "{name}, {kib} KiB: {rate} MiB a second ({micros} us, {found} translations)")
}

fn report_all(rt: &(impl Print + Clock + AllocGlobal)) -> Result<io::Result<()>, OutOfMemory> {
    let alloc = rt.alloc();
    for size in [MIB / 2, 4 * MIB] {
        let whole = catalogue(alloc, (size / 170) as u64)?;
        let few = catalogue(alloc, 1)?;
        let translated = bundle(alloc, size, 1, 0)?;
        let lacking = bundle(alloc, size, 1, 1)?;
        let long = bundle(alloc, size, size / TRANSLATION.len(), 0)?;
        for (name, text, catalogue) in [
            ("translations", &translated, &whole),
            ("ids that the catalogue lacks", &lacking, &few),
            ("one translation", &long, &few),
        ] {
            if let Err(error) = report(rt, name, text.as_str(), catalogue) {
                return Ok(Err(error));
            }
        }
    }
    Ok(Ok(()))
}

fn main(rt: HostRuntime) -> io::Result<()> {
    match report_all(&rt) {
        Ok(done) => done,
        Err(_) => println!(rt; "out of memory"),
    }
}
PROGRAM

measure bench_msg_bundle
