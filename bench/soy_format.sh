#!/usr/bin/env bash
# Times `format` on the trees of files of 1 MiB, each of one shape alone, which would show work that grows faster than
# what is written: prints, one long text, texts with characters that are written as commands, nested ifs, sums in
# parentheses, strings, calls and messages. Prints microseconds, the bytes written, and megabytes of the file a second,
# the least of five runs, with the time of `lex` and `parse` beside it. Run it from any folder: `bench/soy_format.sh`.
set -eu
. "$(dirname "$0")/setup.sh"

begin bench_soy_format soy_base plural_rules soy_lexer soy_tree expr_parser soy_parser soy_expr soy_format \
    soy_rules <<'PROGRAM'
#![tactic(auto)]

use soy_format::format;
use soy_lexer::lex;
use soy_parser::parse;
use std::alloc::{AllocError, Global};
use std::io;
use std::rt::Clock;
use std::time::Instant;

const MIB: usize = 1_048_576;

const IF: &str = "{if 1}{if 1}{if 1}{if 1}{if 1}{if 1}{if 1}{if 1}{if 1}{if 1}";
const END: &str = "{/if}{/if}{/if}{/if}{/if}{/if}{/if}{/if}{/if}{/if}";

/// As many whole pieces as 1 MiB has room for, between two ends.
fn repeated(alloc: Global, prefix: &str, piece: &str, suffix: &str) -> Result<String, AllocError> {
    let most = MIB.saturating_sub(piece.len()).saturating_sub(suffix.len());
    let mut text = String::from_str(alloc, prefix)?;
    for _ in 0..MIB {
        if text.len() > most {
            break;
        }
        text.push_str(piece)?;
    }
    text.push_str(suffix)?;
    Ok(text)
}

/// Sixty blocks, one in the other.
fn nested(alloc: Global) -> Result<String, AllocError> {
    let mut text = String::new(alloc);
    for _ in 0..6u32 {
        text.push_str(IF)?;
    }
    text.push_str("a")?;
    for _ in 0..6u32 {
        text.push_str(END)?;
    }
    Ok(text)
}

/// The least times of five runs, of `lex` with `parse` and of `format`.
fn report(rt: &(impl Print + Clock), alloc: Global, name: &str, text: &str) -> io::Result<()> {
    let mut read = u128::MAX;
    let mut formatted = u128::MAX;
    let mut written = 0;
    for _ in 0..5u32 {
        let start = Instant::now(rt)?;
        if let Ok(tokens) = lex(alloc, text, 0) {
            if let Ok(tree) = parse(alloc, tokens.as_slice(), 0) {
                read = read.min(start.elapsed(rt)?.as_nanos());
                let start = Instant::now(rt)?;
                let canonical = format(alloc, &tree);
                formatted = formatted.min(start.elapsed(rt)?.as_nanos());
                if let Ok(canonical) = canonical {
                    written = canonical.len();
                }
            }
        }
    }
    if written == 0 {
        return println!(rt; "{name}: refused");
    }
    let speed = (text.len() as u128).saturating_mul(1000) / formatted.max(1);
    let (read, formatted) = (read / 1000, formatted / 1000);
    println!(rt; "{name}: lex and parse {read} us, format {formatted} us ({written} bytes written, {speed} MB a second)")
}

fn main(rt: HostRuntime) -> io::Result<()> {
    let alloc = rt.alloc();
    let nested = nested(alloc)?;
    let head = "{namespace t}{template m}";
    let end = "{/template}";
    for (name, prefix, piece, suffix) in [
        ("prints", head, "{$a}", end),
        ("one long text", head, "a", end),
        ("texts and characters", head, "a{lb}", end),
        ("slashes", head, "/{nil}", end),
        ("60 nested ifs", head, nested.as_str(), end),
        ("sums in parentheses", head, "{1-(2-(3-(4-(5-(6-(7-(8-9)))))))}", end),
        ("strings", head, "{'a\\n'}", end),
        ("calls", head, "{call a}{param p: 1 /}{/call}", end),
        ("messages", head, "{msg desc=\"d\"}a{$x}{/msg}", end),
        ("templates", "{namespace t}", "{template m}{@param a: list<int>}a{/template}", ""),
    ] {
        let text = repeated(alloc, prefix, piece, suffix)?;
        report(&rt, alloc, name, text.as_str())?;
    }
    Ok(())
}
PROGRAM

measure bench_soy_format
