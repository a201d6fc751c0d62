#!/usr/bin/env bash
# Times `escape` by each escaper on 1 MiB of plain letters, of words, of letters of two bytes, of text with one special
# character in twenty, and of specials alone, and a copy of the same text beside it. Prints MiB of the text a second.
# CssValue stops at the first special, so its figures say something of plain letters alone. Html by words is what
# `esc_table::escape_into` does. For the escapers by characters it times `plain_prefix` with `put_char` over the same
# texts, without writing what stands for itself, and `escape` of a short text, in nanoseconds a call. Run it from
# anywhere: `bench/escapers.sh`.
set -eu
. "$(dirname "$0")/setup.sh"

begin bench_escapers soy_base esc_table script_state escapers <<'PROGRAM'
#![tactic(auto)]

ghost use Rattle.std.specs.Prelude.{IsTrue};
ghost use Rattle.escapers.specs.Esc.{is_by_characters};

use esc_table::Tail;
use escapers::{Escaper, escape, escaper_for, plain_prefix, put_char};
use soy_base::{Dir, Place, ValueClass};
use std::alloc::{AllocError, Global};
use std::io;
use std::rt::Clock;
use std::time::Instant;

const MIB: u32 = 1_048_576;

fn repeated(alloc: Global, piece: &str) -> Result<String, AllocError> {
    let mut text = String::new(alloc);
    for _ in 0..MIB {
        if text.len() >= MIB as usize {
            break;
        }
        text.push_str(piece)?;
    }
    Ok(text)
}

/// The length of the text as it is escaped at a place; 0 where none is made there.
fn escaped_len(alloc: Global, place: Place, text: &str) -> usize {
    let Some(how) = escaper_for(place, ValueClass::Text) else {
        return 0;
    };
    match how {
        Escaper::Wrap | Escaper::AsIs => 0,
        _ => match escape(alloc, how, ValueClass::Text, text, Dir::Ltr) {
            Ok(out) => out.len(),
            Err(_) => 0,
        },
    }
}

fn copied_len(alloc: Global, text: &str) -> usize {
    match String::from_str(alloc, text) {
        Ok(out) => out.len(),
        Err(_) => 0,
    }
}

/// The bytes of the forms of the characters that don't stand for themselves, each put and taken by itself.
fn forms_len(how: Escaper, text: &str) -> usize
    requires { IsTrue (is_by_characters how) }
{
    let mut room = [0; 16];
    let mut len = 0usize;
    let mut rest = text;
    for _ in 0..u32::MAX {
        let (_, others) = plain_prefix(how, rest);
        let mut characters = others.chars();
        let Some(c) = characters.next() else {
            break;
        };
        let mut tail = Tail::empty();
        put_char(how, c, &mut tail);
        len = len.saturating_add(tail.take(&mut room));
        rest = characters.as_str();
    }
    len
}

/// The least time of nine runs.
fn report<F: FnMut(&str) -> usize>(rt: &(impl Print + Clock), name: &str, of: &str, text: &str, mut run: F) -> io::Result<()>
    requires { F.IsAlwaysCallable run }
{
    let mut best = u128::MAX;
    let mut length = 0;
    for _ in 0..9u32 {
        let start = Instant::now(rt)?;
        length = run(text);
        best = best.min(start.elapsed(rt)?.as_nanos());
    }
    let rate = 1_000_000_000u128 * text.len() as u128 / best.max(1) / MIB as u128;
    println!(rt; "{name}, {of}: {rate} MiB a second ({length} bytes)")
}

/// The least time of nine runs of 1,000 calls on a short text.
fn report_short(rt: &(impl Print + Clock), name: &str, alloc: Global, place: Place, text: &str) -> io::Result<()> {
    let mut best = u128::MAX;
    let mut length = 0usize;
    for _ in 0..9u32 {
        let start = Instant::now(rt)?;
        for _ in 0..1_000u32 {
            length = length.wrapping_add(escaped_len(alloc, place, text));
        }
        best = best.min(start.elapsed(rt)?.as_nanos());
    }
    println!(rt; "{name}, {text}: {} ns a call ({length} bytes)", best / 1_000)
}

fn main(rt: HostRuntime) -> io::Result<()> {
    let alloc = rt.alloc();
    for (of, piece) in [
        ("plain letters", "a"),
        ("words", "Ten words, no more. "),
        ("letters of two bytes", "\u{5d0}"),
        ("one special in twenty", "Ten words & no more."),
        ("specials alone", "<&>\"'"),
    ] {
        let text = repeated(alloc, piece)?;
        report(&rt, "a copy", of, text.as_str(), |text| copied_len(alloc, text))?;
        for (name, place) in [
            ("Html", Place::Attr),
            ("UriStart", Place::UriStart),
            ("UriNormal", Place::UriPath),
            ("UriComponent", Place::UriQuery),
            ("JsString", Place::JsSingle),
            ("JsValue", Place::JsValue),
            ("CssString", Place::CssString),
            ("CssValue", Place::CssValue),
            ("Plain", Place::Plain),
        ] {
            report(&rt, name, of, text.as_str(), |text| escaped_len(alloc, place, text))?;
        }
        report(&rt, "Html in pieces", of, text.as_str(), |text| forms_len(Escaper::Html, text))?;
        report(&rt, "UriNormal in pieces", of, text.as_str(), |text| forms_len(Escaper::UriNormal, text))?;
        report(&rt, "UriComponent in pieces", of, text.as_str(), |text| forms_len(Escaper::UriComponent, text))?;
        report(&rt, "JsString in pieces", of, text.as_str(), |text| forms_len(Escaper::JsString, text))?;
        report(&rt, "CssString in pieces", of, text.as_str(), |text| forms_len(Escaper::CssString, text))?;
    }
    for (name, place) in [
        ("Html", Place::Attr),
        ("JsString", Place::JsSingle),
        ("CssString", Place::CssString),
        ("Plain", Place::Plain),
    ] {
        report_short(&rt, name, alloc, place, "Ten & 5")?;
    }
    Ok(())
}
PROGRAM

measure bench_escapers
