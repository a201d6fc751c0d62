#!/usr/bin/env bash
# Times `read_data` on lists of 40,000 items: records of three strings and an int whose members stand in another order
# than the fields, and in the same order, strings, ints, and records at a union of two types of which the second fits.
# Prints nanoseconds an item. Run it from any folder: `bench/soy_types.sh`.
set -eu
. "$(dirname "$0")/setup.sh"

begin bench_soy_types soy_base plural_rules soy_tree soy_rules soy_types <<'PROGRAM'
#![tactic(auto)]

use soy_base::{Boxed, OutOfMemory, Seq, Span, Text};
use soy_tree::{Field, Param, SoyType};
use soy_types::read_data;
use std::alloc::Global;
use std::io;
use std::rt::Clock;
use std::time::Instant;

const ITEMS: usize = 40_000;

fn text(alloc: Global, text: &str) -> Result<Text, OutOfMemory> {
    Ok(Text::new(String::from_str(alloc, text)?))
}

fn add_field(alloc: Global, fields: &mut Vec<Field>, name: &str, of: SoyType) -> Result<(), OutOfMemory> {
    let name = text(alloc, name)?;
    fields.push(Field { name, of })?;
    Ok(())
}

fn record(alloc: Global) -> Result<SoyType, OutOfMemory> {
    let mut fields = Vec::new(alloc);
    add_field(alloc, &mut fields, "who", SoyType::Str)?;
    add_field(alloc, &mut fields, "text", SoyType::Str)?;
    add_field(alloc, &mut fields, "link", SoyType::Str)?;
    add_field(alloc, &mut fields, "n", SoyType::Int)?;
    Ok(SoyType::Fields(Seq::new(fields)))
}

fn unfit(alloc: Global) -> Result<SoyType, OutOfMemory> {
    let mut fields = Vec::new(alloc);
    add_field(alloc, &mut fields, "missing", SoyType::Int)?;
    Ok(SoyType::Fields(Seq::new(fields)))
}

fn union(alloc: Global) -> Result<SoyType, OutOfMemory> {
    let first = unfit(alloc)?;
    let second = record(alloc)?;
    let mut members = Vec::new(alloc);
    members.push(first)?;
    members.push(second)?;
    Ok(SoyType::Union(Seq::new(members)))
}

/// The parameter `l`, a list of items of a type.
fn params(alloc: Global, of: SoyType) -> Result<Vec<Param>, OutOfMemory> {
    let name = text(alloc, "l")?;
    let of = SoyType::List(Boxed::new(alloc, of)?);
    let mut params = Vec::new(alloc);
    params.push(Param { name, of, required: true, span: Span { start: 0, end: 0 } })?;
    Ok(params)
}

/// The object with so many times an item in `l`.
fn data(alloc: Global, item: &str) -> Result<String, OutOfMemory> {
    let mut out = String::from_str(alloc, "{\"l\":[")?;
    out.push_str(item)?;
    for _ in 1..ITEMS {
        out.push(',')?;
        out.push_str(item)?;
    }
    out.push_str("]}")?;
    Ok(out)
}

/// The least time of five runs.
fn report(
    rt: &(impl Print + Clock + AllocGlobal),
    name: &str,
    params: &[Param],
    data: &str,
) -> io::Result<()> {
    let alloc = rt.alloc();
    let mut best = u128::MAX;
    let mut read = 0u32;
    for _ in 0..5u32 {
        let start = Instant::now(rt)?;
        let value = read_data(alloc, data.as_bytes(), params);
        best = best.min(start.elapsed(rt)?.as_nanos());
        if value.is_ok() {
            read = read.saturating_add(1);
        }
    }
    let nanos = best / ITEMS as u128;
    println!(rt; "{name}: {nanos} ns an item ({read} of 5 read)")
}

/// Reports on a list of an item at a type.
fn report_items(
    rt: &(impl Print + Clock + AllocGlobal),
    name: &str,
    of: SoyType,
    item: &str,
) -> Result<io::Result<()>, OutOfMemory> {
    let alloc = rt.alloc();
    let data = data(alloc, item)?;
    let params = params(alloc, of)?;
    Ok(report(rt, name, params.as_slice(), data.as_str()))
}

const OTHER_ORDER: &str = "{\"link\":\"https://e.example/?q=1&r=2\",\"n\":145,\"text\":\"tea a<b\",\"who\":\"x y\"}";
const SAME_ORDER: &str = "{\"who\":\"x y\",\"text\":\"tea a<b\",\"link\":\"https://e.example/?q=1&r=2\",\"n\":145}";

fn report_records(rt: &(impl Print + Clock + AllocGlobal)) -> Result<io::Result<()>, OutOfMemory> {
    let alloc = rt.alloc();
    let done = report_items(rt, "records, members in another order", record(alloc)?, OTHER_ORDER)?;
    if done.is_err() {
        return Ok(done);
    }
    let done = report_items(rt, "records, members in the order of the fields", record(alloc)?, SAME_ORDER)?;
    if done.is_err() {
        return Ok(done);
    }
    report_items(rt, "records, at a union", union(alloc)?, SAME_ORDER)
}

fn report_all(rt: &(impl Print + Clock + AllocGlobal)) -> Result<io::Result<()>, OutOfMemory> {
    let done = report_records(rt)?;
    if done.is_err() {
        return Ok(done);
    }
    let done = report_items(rt, "strings", SoyType::Str, "\"tea a<b\"")?;
    if done.is_err() {
        return Ok(done);
    }
    report_items(rt, "ints", SoyType::Int, "145")
}

fn main(rt: HostRuntime) -> io::Result<()> {
    match report_all(&rt) {
        Ok(done) => done,
        Err(_) => println!(rt; "out of memory"),
    }
}
PROGRAM

measure bench_soy_types
