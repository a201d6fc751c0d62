#!/usr/bin/env bash
# Times `State::step` on 1 MiB of a page and of shapes of one kind alone, and `State::value_step` on a value. Prints MiB
# of the text a second, and microseconds: 1,000 of them are about a nanosecond a character, since 1 MiB of ASCII has
# 1,048,576. Run it at any place: `bench/html_state.sh`.
set -eu
. "$(dirname "$0")/setup.sh"

begin bench_state soy_base script_state html_state <<'PROGRAM'
#![tactic(auto)]

use html_state::State;
use soy_base::Kind;
use std::alloc::{AllocError, Global};
use std::io;
use std::mem::size_of;
use std::rt::Clock;
use std::time::Instant;

const MIB: usize = 1_048_576;

const STATE_BYTES: usize = size_of::<State>();

const PAGE: &str = r#"<div class="goods" id="good-17">
  <h2 class='title'>Ten yards of linen, and no more</h2>
  <p title="In two colours" style="color: red; margin: 0">The price is <em>12</em> crowns &amp; a half.</p>
  <a href="/shop/goods?id=17&amp;from=list#top" class="button" onclick="open()">Buy it now</a>
  <!-- the list goes on -->
</div>
"#;

fn repeated(alloc: Global, prefix: &str, piece: &str) -> Result<String, AllocError> {
    let most = MIB.saturating_sub(piece.len());
    let mut text = String::from_str(alloc, prefix)?;
    for _ in 0..MIB {
        if text.len() > most {
            break;
        }
        text.push_str(piece)?;
    }
    Ok(text)
}

fn run(text: &str, is_static: bool) -> (State, usize) {
    let mut state = State::start(Kind::Html);
    let mut faults = 0;
    for c in text.chars() {
        let answer = if is_static {
            state.step(c)
        } else {
            state.value_step(c)
        };
        if answer.is_err() && faults < usize::MAX {
            faults += 1;
        }
    }
    (state, faults)
}

fn report(rt: &(impl Print + Clock), name: &str, text: &str, is_static: bool) -> io::Result<()> {
    let mut best = u128::MAX;
    let mut faults = 0;
    for _ in 0..5u32 {
        let start = Instant::now(rt)?;
        let (_, met) = run(text, is_static);
        best = best.min(start.elapsed(rt)?.as_nanos());
        faults = met;
    }
    let rate = 1_000_000_000u128 * text.len() as u128 / best.max(1) / MIB as u128;
    let micros = best / 1000;
    println!(rt; "{name}: {rate} MiB a second ({micros} us, {faults} faults)")
}

fn main(rt: HostRuntime) -> io::Result<()> {
    println!(rt; "a State has {STATE_BYTES} bytes")?;
    let alloc = rt.alloc();
    for (name, prefix, piece) in [
        ("page", "", PAGE),
        ("plain text", "", "Ten words, and no more.\n"),
        ("script", "<script>", "var name = 'a \"b\" c'; // a line\nopen({a: 1, b: [2, 3]}); /* a comment */\n"),
        ("style", "<style>", "p.title { color: red; margin: 0 1em; } /* a comment */\n"),
        ("quoted value", "<p title=\"", "Ten words, and no more. "),
        ("uri value", "<a href=\"/", "shop/goods-and-more/"),
        ("uri query", "<a href=\"/?", "id=17,b=2;c=3"),
        ("schemes", "", "<a href=\"https://a\">"),
        ("style value", "<p style=\"", "color: red; margin: 0; "),
        ("tags", "", "<div><p><em></em></p></div>"),
        ("attributes", "<p ", "class=\"a\" id=b title='c' checked "),
        ("references", "", "&amp;"),
        ("references larr", "", "&rlm;&zwj;"),
        ("numbers", "", "&#x1F60A;"),
        ("numbers decimal", "", "&#128512;"),
        ("comments", "", "<!-- a comment -->"),
        ("end tags given up", "<script>", "'</scrip '"),
        ("titles", "", "<title>a</title>"),
        ("unquoted", "", "<p class=abcdef>"),
    ] {
        let text = repeated(alloc, prefix, piece)?;
        report(&rt, name, text.as_str(), true)?;
    }
    let text = repeated(alloc, "<p title=\"", "Ten words, and no more. ")?;
    report(&rt, "value's characters", text.as_str(), false)
}
PROGRAM

measure bench_state
