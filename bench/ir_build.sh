#!/usr/bin/env bash
# Times `program_parts` and prints the nanoseconds a node, which are about the same where the time is linear: on trees of
# 10,000 and of 40,000 nodes (a long list of prints, loops of ten prints each, a template that calls itself), on the
# nodes of a file of 1 MiB, on 1,000 and 10,000 templates each of which calls the next, and on 1,000 and 10,000 messages
# with a translation each. Run it from any folder: `bench/ir_build.sh`.
set -eu
. "$(dirname "$0")/setup.sh"

begin bench_ir_build soy_base plural_rules soy_tree script_state html_state bidi_class esc_table bidi_text escapers \
    soy_meaning msg_extract template_ir ir_build \
    soy_rules \
    soy_pieces <<'PROGRAM'
#![tactic(auto)]

use ir_build::program_parts;
use msg_extract::message_id;
use soy_base::{Kind, OutOfMemory, Place, Seq, Span, Text};
use soy_tree::{
    Bundle, Expr, ExprNode, Form, Message, MessageBody, MsgPart, Node, Template, Translation, Tree,
};
use std::io;
use std::alloc::Global;
use std::rt::Clock;
use std::time::Instant;

const SPAN: Span = Span { start: 0, end: 0 };

fn text(alloc: Global, text: &str) -> Result<Text, OutOfMemory> {
    Ok(Text::new(String::from_str(alloc, text)?))
}

fn variable(alloc: Global) -> Result<Expr, OutOfMemory> {
    let node = ExprNode::Var(text(alloc, "x")?);
    Expr::new(alloc, node, SPAN)
}

fn node(form: Form) -> Node {
    Node { form, span: SPAN }
}

/// So many prints, between texts.
fn prints(alloc: Global, count: usize) -> Result<Vec<Node>, OutOfMemory> {
    let mut nodes = Vec::new(alloc);
    for _ in 0..count / 2 {
        nodes.push(node(Form::Print(variable(alloc)?, None)))?;
        nodes.push(node(Form::Text(text(alloc, "a")?)))?;
    }
    Ok(nodes)
}

/// Loops of ten prints each.
fn loops(alloc: Global, count: usize) -> Result<Vec<Node>, OutOfMemory> {
    let mut nodes = Vec::new(alloc);
    for _ in 0..count / 11 {
        let body = Seq::new(prints(alloc, 10)?);
        nodes.push(node(Form::For(text(alloc, "y")?, None, variable(alloc)?, body)))?;
    }
    Ok(nodes)
}

/// A call without params.
fn call(alloc: Global, name: &str) -> Result<Node, OutOfMemory> {
    Ok(node(Form::Call(text(alloc, name)?, false, Seq::new(Vec::new(alloc)))))
}

/// Calls of the template itself.
fn calls(alloc: Global, count: usize) -> Result<Vec<Node>, OutOfMemory> {
    let mut nodes = Vec::new(alloc);
    for _ in 0..count {
        nodes.push(call(alloc, "m")?)?;
    }
    Ok(nodes)
}

/// A template of a body.
fn template(alloc: Global, name: &str, body: Vec<Node>) -> Result<Template, OutOfMemory> {
    Ok(Template {
        name: text(alloc, name)?,
        kind: Kind::Html,
        private: false,
        params: Seq::new(Vec::new(alloc)),
        body: Seq::new(body),
        span: SPAN,
    })
}

/// One file of these templates.
fn file(alloc: Global, templates: Vec<Template>) -> Result<Vec<Tree>, OutOfMemory> {
    let mut trees = Vec::new(alloc);
    trees.push(Tree {
        namespace: text(alloc, "t")?,
        templates: Seq::new(templates),
    })?;
    Ok(trees)
}

/// One file of one template of this body.
fn trees(alloc: Global, body: Vec<Node>) -> Result<Vec<Tree>, OutOfMemory> {
    let mut templates = Vec::new(alloc);
    templates.push(template(alloc, "m", body)?)?;
    file(alloc, templates)
}

/// So many templates, each of which calls the next.
fn chain(alloc: Global, count: u32) -> Result<Vec<Tree>, OutOfMemory> {
    let mut templates = Vec::new(alloc);
    for number in 0..count {
        let name = format!(in alloc; "m{number}")?;
        let next = number as u64 + 1;
        let called = format!(in alloc; "m{next}")?;
        let mut body = Vec::new(alloc);
        body.push(call(alloc, called.as_str())?)?;
        templates.push(template(alloc, name.as_str(), body)?)?;
    }
    file(alloc, templates)
}

/// A message of a text.
fn message(alloc: Global, number: u32) -> Result<Message, OutOfMemory> {
    let written = format!(in alloc; "a{number}")?;
    let mut body = Vec::new(alloc);
    body.push(node(Form::Text(text(alloc, written.as_str())?)))?;
    Ok(Message {
        desc: Text::empty(alloc),
        meaning: Text::empty(alloc),
        body: MessageBody::Parts(Seq::new(body)),
        span: SPAN,
    })
}

/// So many messages.
fn messages(alloc: Global, count: u32) -> Result<Vec<Node>, OutOfMemory> {
    let mut nodes = Vec::new(alloc);
    for number in 0..count {
        nodes.push(node(Form::Message(message(alloc, number)?, None)))?;
    }
    Ok(nodes)
}

/// The bundle with a translation of each of these messages.
fn translated(alloc: Global, count: u32) -> Result<Bundle, OutOfMemory> {
    let mut all = Vec::new(alloc);
    for number in 0..count {
        let id = message_id(alloc, &message(alloc, number)?)?;
        let mut parts = Vec::new(alloc);
        parts.push(MsgPart::Text(text(alloc, "b")?))?;
        all.push(Translation {
            id,
            parts: Seq::new(parts),
        })?;
    }
    let mut bundle = Bundle::source(alloc);
    bundle.messages = Seq::new(all);
    Ok(bundle)
}

/// The least time of three runs.
fn report(
    rt: &(impl Print + Clock + AllocGlobal),
    name: &str,
    count: usize,
    trees: &[Tree],
    bundle: &Bundle,
) -> io::Result<()> {
    let alloc = rt.alloc();
    if trees.len() != 1 {
        return Ok(());
    }
    let mut best = u128::MAX;
    let mut ops = 0;
    for _ in 0..3u32 {
        let start = Instant::now(rt)?;
        let parts = program_parts(alloc, trees, &[Place::Text], bundle);
        best = best.min(start.elapsed(rt)?.as_nanos());
        if let Ok(parts) = parts {
            ops = parts.ops.items().len();
        }
    }
    let each = best / count.max(1) as u128;
    let millis = best / 1_000_000;
    println!(rt; "{name}, {count} nodes: {each} ns a node, {millis} ms ({ops} ops)")
}

/// Bodies, under the bundle of the source.
fn report_bodies(rt: &(impl Print + Clock + AllocGlobal)) -> Result<io::Result<()>, OutOfMemory> {
    let alloc = rt.alloc();
    let source = Bundle::source(alloc);
    for count in [10_000usize, 40_000] {
        let printed = trees(alloc, prints(alloc, count)?)?;
        let looped = trees(alloc, loops(alloc, count)?)?;
        let called = trees(alloc, calls(alloc, count)?)?;
        for (name, trees) in [("prints", &printed), ("loops", &looped), ("calls", &called)] {
            if let Err(error) = report(rt, name, count, trees.as_slice(), &source) {
                return Ok(Err(error));
            }
        }
    }
    // 209,715 times `{$x}a`.
    let long = trees(alloc, prints(alloc, 419_430)?)?;
    Ok(report(rt, "a file of 1 MiB", 419_430, long.as_slice(), &source))
}

/// Templates that call one another, and messages with translations.
fn report_names(rt: &(impl Print + Clock + AllocGlobal)) -> Result<io::Result<()>, OutOfMemory> {
    let alloc = rt.alloc();
    let source = Bundle::source(alloc);
    for count in [1_000u32, 10_000] {
        let chained = chain(alloc, count)?;
        if let Err(error) = report(rt, "templates", count as usize, chained.as_slice(), &source) {
            return Ok(Err(error));
        }
        let said = trees(alloc, messages(alloc, count)?)?;
        let bundle = translated(alloc, count)?;
        if let Err(error) = report(rt, "messages", count as usize, said.as_slice(), &bundle) {
            return Ok(Err(error));
        }
    }
    Ok(Ok(()))
}

fn report_all(rt: &(impl Print + Clock + AllocGlobal)) -> Result<io::Result<()>, OutOfMemory> {
    if let Err(error) = report_bodies(rt)? {
        return Ok(Err(error));
    }
    report_names(rt)
}

fn main(rt: HostRuntime) -> io::Result<()> {
    match report_all(&rt) {
        Ok(done) => done,
        Err(_) => println!(rt; "out of memory"),
    }
}
PROGRAM

measure bench_ir_build
