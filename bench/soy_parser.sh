#!/usr/bin/env bash
# Times `parse` beside `lex` on files of 1 MiB: on one like a template file, and on shapes of one kind alone, which would
# show work that grows faster than the tokens. Prints microseconds of each and how many tokens the file has. Run it from
# any folder: `bench/soy_parser.sh`.
set -eu
. "$(dirname "$0")/setup.sh"

begin bench_soy_parser soy_base plural_rules soy_lexer soy_tree expr_parser soy_parser <<'PROGRAM'
#![tactic(auto)]

use soy_lexer::lex;
use soy_parser::parse;
use std::alloc::{AllocError, Global};
use std::io;
use std::rt::Clock;
use std::time::Instant;

const MIB: usize = 1_048_576;

const TEMPLATE: &str = r#"
/** The list of a shop's goods, each with its price. */
{template .goods kind="html"}
  {@param goods: list<[name: string, price: int, note: string]>}
  {@param? title: string}

  // The title may be left out.
  <h1 class="title">{$title ?: 'Goods'}</h1>
  <ul>
    {for $good, $i in $goods}
      <li id="good-{$i + 1}">
        {$good.name}: {msg desc="The price of one of the goods."}{$good.price} crowns{/msg}
        {if $good.note != ''}<em>{$good.note}</em>{sp}{/if}
      </li>
    {/for}
  </ul>
  {literal}<script>let open = {a: 1};</script>{/literal}
  {call .footer data="all"}{param year: 2026 /}{/call}
{/template}
"#;

const IF: &str = "{if 1}{if 1}{if 1}{if 1}{if 1}{if 1}{if 1}{if 1}{if 1}{if 1}";
const END: &str = "{/if}{/if}{/if}{/if}{/if}{/if}{/if}{/if}{/if}{/if}";

/// As many whole pieces as 1 MiB has room for, between two ends.
fn repeated(alloc: Global, prefix: &str, piece: &str, suffix: &str) -> Result<String, AllocError> {
    let most = MIB.saturating_sub(piece.len()).saturating_sub(suffix.len());
    let mut text = String::from_str(alloc, prefix)?;
    for _ in 0..MIB {
        if text.len() > most {
            break;
        }
        text.push_str(piece)?;
    }
    text.push_str(suffix)?;
    Ok(text)
}

/// Sixty blocks, one in the other.
fn nested(alloc: Global) -> Result<String, AllocError> {
    let mut text = String::new(alloc);
    for _ in 0..6u32 {
        text.push_str(IF)?;
    }
    text.push_str("a")?;
    for _ in 0..6u32 {
        text.push_str(END)?;
    }
    Ok(text)
}

/// The least times of five runs, of `lex` and of `parse`.
fn report(rt: &(impl Print + Clock), alloc: Global, name: &str, text: &str) -> io::Result<()> {
    let mut lexed = u128::MAX;
    let mut parsed = u128::MAX;
    let mut count = 0;
    let mut is_read = false;
    for _ in 0..5u32 {
        let start = Instant::now(rt)?;
        let tokens = lex(alloc, text, 0);
        lexed = lexed.min(start.elapsed(rt)?.as_nanos());
        if let Ok(tokens) = tokens {
            count = tokens.len();
            let start = Instant::now(rt)?;
            let tree = parse(alloc, tokens.as_slice(), 0);
            parsed = parsed.min(start.elapsed(rt)?.as_nanos());
            is_read = tree.is_ok();
        }
    }
    let answer = if is_read { "a tree" } else { "refused" };
    let each = parsed / (count as u128).max(1);
    let (lexed, parsed) = (lexed / 1000, parsed / 1000);
    println!(rt; "{name}: lex {lexed} us, parse {parsed} us ({answer}, {count} tokens, {each} ns a token)")
}

fn main(rt: HostRuntime) -> io::Result<()> {
    let alloc = rt.alloc();
    let nested = nested(alloc)?;
    let head = "{namespace t}{template m}";
    let end = "{/template}";
    for (name, prefix, piece, suffix) in [
        ("template file", "{namespace shop}\n", TEMPLATE, ""),
        ("prints", head, "{$a}", end),
        ("60 nested ifs", head, nested.as_str(), end),
        ("one long sum", "{namespace t}{template m}{1", "+1", "}{/template}"),
        ("one long text", head, "a", end),
        ("texts and characters", head, "a{sp}", end),
        ("one long message", "{namespace t}{template m}{msg desc=\"\"}", "<b>{$a}</b>", "{/msg}{/template}"),
        ("cases", "{namespace t}{template m}{switch 1}", "{case 1}a", "{/switch}{/template}"),
        ("params", "{namespace t}{template m}{call a}", "{param p: 1 /}", "{/call}{/template}"),
    ] {
        let text = repeated(alloc, prefix, piece, suffix)?;
        report(&rt, alloc, name, text.as_str())?;
    }
    Ok(())
}
PROGRAM

measure bench_soy_parser
