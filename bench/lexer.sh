#!/usr/bin/env bash
# Times `lex` on files of 1 MiB: on one like a template file, and on shapes of one kind alone, which would show work that
# grows faster than the text. Prints MiB of the file a second and how many tokens it has. Run it from any folder:
# `bench/lexer.sh`.
set -eu
. "$(dirname "$0")/setup.sh"

begin bench_lexer soy_base soy_lexer <<'PROGRAM'
#![tactic(auto)]

use soy_lexer::lex;
use std::alloc::{AllocError, Global};
use std::io;
use std::rt::Clock;
use std::time::Instant;

const MIB: usize = 1_048_576;

const TEMPLATE: &str = r#"
/** The list of a shop's goods, each with its price. */
{template .goods kind="html"}
  {@param goods: list<[name: string, price: int, note: string]>}
  {@param? title: string}

  // The title may be left out.
  <h1 class="title">{$title ?: 'Goods'}</h1>
  <ul>
    {for $good, $i in $goods}
      <li id="good-{$i + 1}">
        {$good.name}: {msg desc="The price of one of the goods."}{$good.price} crowns{/msg}
        {if $good.note != ''}<em>{$good.note}</em>{sp}{/if}
      </li>
    {/for}
  </ul>
  {literal}<script>let open = {a: 1};</script>{/literal}
  {call .footer data="all"}{param year: 2026 /}{/call}
{/template}
"#;

/// As many whole pieces as 1 MiB has room for, between two ends.
fn repeated(alloc: Global, prefix: &str, piece: &str, suffix: &str) -> Result<String, AllocError> {
    let most = MIB.saturating_sub(piece.len()).saturating_sub(suffix.len());
    let mut text = String::from_str(alloc, prefix)?;
    for _ in 0..MIB {
        if text.len() > most {
            break;
        }
        text.push_str(piece)?;
    }
    text.push_str(suffix)?;
    Ok(text)
}

/// The least time of five runs.
fn report(rt: &(impl Print + Clock), alloc: Global, name: &str, text: &str) -> io::Result<()> {
    let mut best = u128::MAX;
    let mut count = 0;
    for _ in 0..5u32 {
        let start = Instant::now(rt)?;
        let tokens = lex(alloc, text, 0);
        best = best.min(start.elapsed(rt)?.as_nanos());
        count = tokens.map_or(0, |tokens| tokens.len());
    }
    let rate = 1_000_000_000u128 * text.len() as u128 / best.max(1) / MIB as u128;
    let micros = best / 1000;
    println!(rt; "{name}: {rate} MiB a second ({micros} us, {count} tokens)")
}

fn main(rt: HostRuntime) -> io::Result<()> {
    let alloc = rt.alloc();
    for (name, prefix, piece, suffix) in [
        ("template file", "{namespace shop}\n", TEMPLATE, ""),
        ("commands {a}", "", "{a}", ""),
        ("line breaks", "", "\n", ""),
        ("comments /**/", "", "/**/", ""),
        ("comments //", "", "//\n", ""),
        ("one comment", "/*", "*", "*/"),
        ("literals", "", "{literal}{/literal}", ""),
        ("one literal", "{literal}", "{/", "{/literal}"),
        ("one string", "{'", "a", "'}"),
        ("one string of escapes", "{'", "\\n", "'}"),
        ("one value", "{\"", "a", "\"}"),
        ("one name", "{", "a", "}"),
        ("symbols", "{", "?:", "}"),
        ("text of words", "", "Ten words, and no more.\n", ""),
        ("text without line breaks", "", "a", ""),
        ("text of three bytes", "", "\u{20ac}", ""),
        ("slashes", "", "/ ", ""),
        ("white space in text", "", " ", ""),
        ("white space after a letter", "a", " \n", "a"),
        ("white space in a command", "{a", " ", "}"),
    ] {
        let text = repeated(alloc, prefix, piece, suffix)?;
        report(&rt, alloc, name, text.as_str())?;
    }
    Ok(())
}
PROGRAM

measure bench_lexer
