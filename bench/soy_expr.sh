#!/usr/bin/env bash
# Times 1,000 look-ups `$list[$i].name` in lists of 10, of 1,000 and of 100,000 records, each with a copy of the name
# that is found, as `eval` makes it. Prints the nanoseconds a look-up; where they grow with the list, a look-up isn't
# one step. Run it from any folder: `bench/soy_expr.sh`.
set -eu
. "$(dirname "$0")/setup.sh"

begin bench_soy_expr soy_base plural_rules soy_tree soy_expr \
    soy_rules <<'PROGRAM'
#![tactic(auto)]

ghost use Rattle.std.specs.Prelude.{◌≡◌, ◌<◌};

use soy_base::{OutOfMemory, Seq, Span, Steps, Text};
use soy_expr::{Binding, Bound, Env, Evaluated, evaluate};
use soy_tree::{Entry, Expr, ExprNode, Value};
use std::alloc::Global;
use std::io;
use std::marker::Brand;
use std::rt::Clock;
use std::sync::ledger::{Blank, Ledger};
use std::time::Instant;

const SPAN: Span = Span { start: 0, end: 0 };

fn text(alloc: Global, text: &str) -> Result<Text, OutOfMemory> {
    Ok(Text::new(String::from_str(alloc, text)?))
}

fn expr(alloc: Global, node: ExprNode) -> Result<Expr, OutOfMemory> {
    Expr::new(alloc, node, SPAN)
}

/// `$list[$i].name`.
fn look_up(alloc: Global) -> Result<Expr, OutOfMemory> {
    let list = expr(alloc, ExprNode::Var(text(alloc, "list")?))?;
    let i = expr(alloc, ExprNode::Var(text(alloc, "i")?))?;
    let item = expr(alloc, ExprNode::Index(list, i, false))?;
    expr(alloc, ExprNode::Member(item, text(alloc, "name")?, false))
}

/// A record of three fields.
fn record(alloc: Global, number: i64) -> Result<Value, OutOfMemory> {
    let mut fields = Vec::new(alloc);
    for (name, value) in [("id", number), ("price", 7)] {
        let name = text(alloc, name)?;
        let value = Value::Int(value);
        fields.push(Entry { name, value })?;
    }
    let name = text(alloc, "name")?;
    let value = Value::Str(text(alloc, "the name of a record")?);
    fields.push(Entry { name, value })?;
    Ok(Value::Fields(Seq::new(fields)))
}

/// `$i` is the index of the last of so many records, the list of which is `$list`.
fn environment(alloc: Global, count: u32) -> Result<Env, OutOfMemory> {
    let mut items = Vec::new(alloc);
    for number in 0..count {
        items.push(record(alloc, number as i64)?)?;
    }
    let mut vars = Vec::new(alloc);
    let name = text(alloc, "i")?;
    let to = Binding::Value(Value::Int(count.saturating_sub(1) as i64));
    vars.push(Bound { name, to })?;
    let name = text(alloc, "list")?;
    let to = Binding::Value(Value::List(Seq::new(items)));
    vars.push(Bound { name, to })?;
    Ok(Env {
        vars: Seq::new(vars),
    })
}

/// How many of 1,000 look-ups find a name, which is copied.
fn look_ups<L: Ledger>(
    alloc: Global,
    expr: &Expr,
    env: &Env,
    blank: Blank,
) -> Result<u32, OutOfMemory>
    requires name { blank.name ≡ L.name }
    requires parts { blank.parts ≡ L.parts }
    requires some { 0 < blank.parts }
{
    let mut steps = Steps::<L>::new(blank);
    let mut found: u32 = 0;
    for _ in 0..1_000u32 {
        if let Evaluated::Part(value, _) = evaluate(alloc, expr, env, &mut steps)? {
            if let Value::Str(_) = value.copy(alloc)? {
                found = found.saturating_add(1);
            }
        }
    }
    Ok(found)
}

/// The same, of a ledger that nothing else uses.
fn names_found(alloc: Global, expr: &Expr, env: &Env) -> Result<u32, OutOfMemory> {
    look_ups::<Brand>(alloc, expr, env, Blank::new(1))
}

/// The least time of five runs.
fn report(rt: &(impl Print + Clock), alloc: Global, count: u32) -> io::Result<()> {
    let (Ok(expr), Ok(env)) = (look_up(alloc), environment(alloc, count)) else {
        return println!(rt; "out of memory");
    };
    let mut best = u128::MAX;
    let mut found = 0;
    for _ in 0..5u32 {
        let start = Instant::now(rt)?;
        if let Ok(names) = names_found(alloc, &expr, &env) {
            found = names;
        }
        best = best.min(start.elapsed(rt)?.as_nanos());
    }
    let each = best / 1_000;
    println!(rt; "{count} records: {each} ns a look-up ({found} of 1000 found)")
}

fn main(rt: HostRuntime) -> io::Result<()> {
    let alloc = rt.alloc();
    for count in [10u32, 1_000, 100_000] {
        report(&rt, alloc, count)?;
    }
    Ok(())
}
PROGRAM

mkdir -p "$work/crates/bench_soy_expr/proofs/names_found"
cat >"$work/crates/bench_soy_expr/proofs/names_found/Invariants.antt" <<'PROOF'
use Rattle.bench_soy_expr.proofs.names_found.Given as goal

abbrev pub ghosts-look_ups : goal.ghosts-look_ups
ghosts-look_ups a = record { name = a.blank.name; parts = a.blank.parts }
PROOF
measure bench_soy_expr
