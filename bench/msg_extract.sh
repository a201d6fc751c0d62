#!/usr/bin/env bash
# Times `message_id` and `placeholders` together on one message, and `extract` on the messages of a file, each at
# several sizes, which would show work that grows faster than the text. Prints microseconds, what one print, tag or
# message costs, and how many messages come in a second. Run it from any folder: `bench/msg_extract.sh`.
set -eu
. "$(dirname "$0")/setup.sh"

begin bench_msg_extract soy_base plural_rules soy_tree msg_extract \
    soy_rules <<'PROGRAM'
#![tactic(auto)]

use msg_extract::{extract, message_id, placeholders};
use soy_base::{Kind, OutOfMemory, Seq, Span, Text};
use soy_tree::{Expr, ExprNode, Form, Message, MessageBody, Node, Template, Tree};
use std::alloc::Global;
use std::io;
use std::rt::Clock;
use std::time::Instant;

const SPAN: Span = Span { start: 0, end: 0 };

/// What the prints or messages of a benchmark are.
#[derive(Clone, Copy)]
enum Shape {
    /// `{$a0.name}{$a1.name}`: contents of one base name.
    OneName,
    /// `{$a0.name}{$a.name phname="NAME_0"}`: base names that numbered names would be.
    TakenNumbers,
    /// `{$a0}{$a1}`: base names.
    ManyNames,
    /// `{$a}{$a}`: one content.
    OneContent,
    /// `<a href="0">x</a>`: tags of two base names.
    Tags,
}

fn variable(alloc: Global, name: &str) -> Result<Expr, OutOfMemory> {
    let name = Text::new(String::from_str(alloc, name)?);
    Expr::new(alloc, ExprNode::Var(name), SPAN)
}

fn print_node(expr: Expr, phname: Option<Text>) -> Node {
    Node {
        form: Form::Print(expr, phname),
        span: SPAN,
    }
}

fn text_node(text: String) -> Node {
    Node {
        form: Form::Text(Text::new(text)),
        span: SPAN,
    }
}

/// `$OF.name`
fn name_of(alloc: Global, of: &str) -> Result<Expr, OutOfMemory> {
    let of = variable(alloc, of)?;
    let name = Text::new(String::from_str(alloc, "name")?);
    Expr::new(alloc, ExprNode::Member(of, name, false), SPAN)
}

fn push_shape(alloc: Global, nodes: &mut Vec<Node>, shape: Shape, number: u64) -> Result<(), OutOfMemory> {
    let of = format!(in alloc; "a{number}")?;
    match shape {
        Shape::OneName => nodes.push(print_node(name_of(alloc, of.as_str())?, None))?,
        Shape::TakenNumbers => {
            nodes.push(print_node(name_of(alloc, of.as_str())?, None))?;
            let phname = format!(in alloc; "NAME_{number}")?;
            nodes.push(print_node(name_of(alloc, "a")?, Some(Text::new(phname))))?;
        }
        Shape::ManyNames => nodes.push(print_node(variable(alloc, of.as_str())?, None))?,
        Shape::OneContent => nodes.push(print_node(variable(alloc, "a")?, None))?,
        Shape::Tags => nodes.push(text_node(format!(in alloc; "<a href=\"{number}\">x</a>")?))?,
    }
    Ok(())
}

fn message_of(alloc: Global, shape: Shape, count: u64) -> Result<Message, OutOfMemory> {
    let mut nodes = Vec::new(alloc);
    for number in 0..count {
        push_shape(alloc, &mut nodes, shape, number)?;
    }
    Ok(Message {
        desc: Text::empty(alloc),
        meaning: Text::empty(alloc),
        body: MessageBody::Parts(Seq::new(nodes)),
        span: SPAN,
    })
}

/// `Hello {$who}, this is message NUMBER`, and a text of some words.
fn small_message(alloc: Global, number: u64) -> Result<Node, OutOfMemory> {
    let mut nodes = Vec::new(alloc);
    nodes.push(text_node(String::from_str(alloc, "Hello ")?))?;
    nodes.push(print_node(variable(alloc, "who")?, None))?;
    nodes.push(text_node(format!(in alloc; ", this is message {number}, one of many that it's written for.")?))?;
    let message = Message {
        desc: Text::empty(alloc),
        meaning: Text::empty(alloc),
        body: MessageBody::Parts(Seq::new(nodes)),
        span: SPAN,
    };
    Ok(Node {
        form: Form::Message(message, None),
        span: SPAN,
    })
}

fn file_of(alloc: Global, count: u64) -> Result<Tree, OutOfMemory> {
    let mut nodes = Vec::new(alloc);
    for number in 0..count {
        nodes.push(small_message(alloc, number)?)?;
    }
    let mut templates = Vec::new(alloc);
    templates.push(Template {
        name: Text::empty(alloc),
        kind: Kind::Html,
        private: false,
        params: Seq::new(Vec::new(alloc)),
        body: Seq::new(nodes),
        span: SPAN,
    })?;
    Ok(Tree {
        namespace: Text::empty(alloc),
        templates: Seq::new(templates),
    })
}

fn report(rt: &impl Print, name: &str, count: u64, nanos: u128) -> io::Result<()> {
    let micros = nanos / 1000;
    let each = nanos / u128::from(count).max(1);
    let in_a_second = u128::from(count).saturating_mul(1_000_000_000) / nanos.max(1);
    println!(rt; "{name}, {count}: {micros} us, {each} ns each, {in_a_second} in a second")
}

fn time_message(rt: &(impl Print + Clock), alloc: Global, name: &str, shape: Shape, count: u64) -> io::Result<()> {
    let Ok(message) = message_of(alloc, shape, count) else {
        return println!(rt; "{name}: out of memory");
    };
    let start = Instant::now(rt)?;
    let id = message_id(alloc, &message);
    let found = placeholders(alloc, &message);
    let nanos = start.elapsed(rt)?.as_nanos();
    if id.is_err() || found.is_err() {
        return println!(rt; "{name}: out of memory");
    }
    report(rt, name, count, nanos)
}

fn time_file(rt: &(impl Print + Clock), alloc: Global, count: u64) -> io::Result<()> {
    let Ok(tree) = file_of(alloc, count) else {
        return println!(rt; "messages: out of memory");
    };
    let trees = [tree];
    let start = Instant::now(rt)?;
    let catalogue = extract(alloc, &trees);
    let nanos = start.elapsed(rt)?.as_nanos();
    if catalogue.is_err() {
        return println!(rt; "messages: refused");
    }
    report(rt, "messages of a file", count, nanos)
}

fn main(rt: HostRuntime) -> io::Result<()> {
    let alloc = rt.alloc();
    for (name, shape) in [
        ("prints of one base name", Shape::OneName),
        ("prints with taken numbers", Shape::TakenNumbers),
        ("prints of many base names", Shape::ManyNames),
        ("prints of one content", Shape::OneContent),
        ("links", Shape::Tags),
    ] {
        for count in [100u64, 1_000, 2_000, 20_000] {
            time_message(&rt, alloc, name, shape, count)?;
        }
    }
    for count in [1_000u64, 10_000, 100_000] {
        time_file(&rt, alloc, count)?;
    }
    Ok(())
}
PROGRAM

measure bench_msg_extract
