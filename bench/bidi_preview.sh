#!/usr/bin/env bash
# Times `levels` and `preview` on lines of 1 MiB, beside fribidi and ICU on the same lines: words, letters, brackets and
# nested isolates. For each line it prints nanoseconds of the processor's time a character and MiB of UTF-8 a second, the
# least of five runs: of `levels`, and of a quarter of the line, which shows work that grows faster than the line; of the
# tokenizer's steps over the line as a page, twice, as `preview` takes them; of the whole `preview`; and of each peer the
# levels, and these with the order as a map of indexes. The processor's time is a process's own, so that other work on
# the machine counts little. Of a peer that fails, or takes more than 60 seconds, the status is printed. It needs cc,
# python3 and Debian's libfribidi-dev and libicu-dev. Run it from anywhere: `bench/bidi_preview.sh`.
set -eu
. "$(dirname "$0")/setup.sh"
export LC_ALL=C.UTF-8

begin bench_bidi_preview soy_base esc_table bidi_class script_state html_state bidi_text bidi_order bidi_preview \
    <<'PROGRAM'
//! Reads from standard input lines of a base of 0 or 1 and the path of a text, and times each text.
#![tactic(auto)]

mod one_text;

use crate::one_text::read_page;
use bidi_preview::{levels, preview};
use soy_base::{Code, Dir, Seq, Text};
use std::alloc::Global;
use std::io::{BufRead, BufReader};
use std::rt::Files;
use std::{fs, io};

const RUNS: u32 = 5;

/// The lines of a page, none where memory runs out, or its fault.
fn shown(alloc: Global, base: Dir, page: &str) -> Result<Option<Seq<Text>>, Code> {
    read_page(page)?;
    Ok(preview(alloc, page, base).ok())
}

/// How many characters of a line have an odd level.
fn odd_levels(alloc: Global, base: Dir, line: &[char]) -> usize {
    let Ok(levels) = levels(alloc, base, line) else {
        return 0;
    };
    levels.items().iter().filter(|level| level.is_some_and(|level| level % 2 == 1)).count()
}

/// The nanoseconds that the process was on a processor.
fn processor_time(rt: &(impl Files + AllocGlobal)) -> io::Result<u64> {
    let text = fs::read_to_string(rt, "/proc/self/schedstat")?;
    match text.as_str().split_whitespace().next() {
        Some(word) => Ok(word.parse::<u64>().unwrap_or(0)),
        None => Ok(0),
    }
}

fn report(
    rt: &impl Print,
    name: &str,
    bytes: usize,
    characters: usize,
    nanos: u64,
    note: &str,
    answer: usize,
) -> io::Result<()> {
    let tenths = nanos.saturating_mul(10) / (characters.max(1) as u64);
    let (whole, part) = (tenths / 10, tenths % 10);
    let rate = (bytes as u64).saturating_mul(1_000_000_000) / nanos.max(1) / 1_048_576;
    println!(rt; "  {name}: {whole}.{part} ns a character, {rate} MiB a second ({answer} {note})")
}

fn time_levels(
    rt: &(impl Print + Files + AllocGlobal),
    alloc: Global,
    name: &str,
    bytes: usize,
    base: Dir,
    line: &[char],
) -> io::Result<()> {
    let mut best = u64::MAX;
    let mut odd = 0;
    for _ in 0..RUNS {
        let start = processor_time(rt)?;
        odd = odd_levels(alloc, base, line);
        best = best.min(processor_time(rt)?.saturating_sub(start));
    }
    report(rt, name, bytes, line.len(), best, "odd levels", odd)
}

fn time_page(
    rt: &(impl Print + Files + AllocGlobal),
    alloc: Global,
    base: Dir,
    page: &str,
    characters: usize,
) -> io::Result<()> {
    let mut steps = u64::MAX;
    let mut whole = u64::MAX;
    let mut faults = 0;
    let mut lines = 0;
    for _ in 0..RUNS {
        let start = processor_time(rt)?;
        let first = read_page(page);
        let second = read_page(page);
        let both = processor_time(rt)?.saturating_sub(start);
        if first.is_err() || second.is_err() {
            faults = 1;
        }
        steps = steps.min(both);
        let start = processor_time(rt)?;
        let found = shown(alloc, base, page);
        let all = processor_time(rt)?.saturating_sub(start);
        whole = whole.min(all.saturating_sub(both / 2));
        if let Ok(Some(found)) = found {
            lines = found.items().len();
        }
    }
    report(rt, "the tokenizer's steps, twice", page.len(), characters, steps, "faults", faults)?;
    report(rt, "preview", page.len(), characters, whole, "lines", lines)
}

fn time_text(rt: &(impl Print + Files + AllocGlobal), alloc: Global, base: Dir, text: &str) -> io::Result<()> {
    let mut line = Vec::new(alloc);
    for c in text.chars() {
        line.push(c)?;
    }
    time_levels(rt, alloc, "levels", text.len(), base, line.as_slice())?;
    if let Some(part) = line.as_slice().get(..line.len() / 4) {
        time_levels(rt, alloc, "levels of a quarter", text.len() / 4, base, part)?;
    }
    time_page(rt, alloc, base, text, line.len())
}

fn main(rt: HostRuntime) -> io::Result<()> {
    let alloc = rt.alloc();
    for asked in BufReader::new(alloc, rt.reader())?.lines(alloc) {
        let asked = asked?;
        if let Some((base, path)) = asked.as_str().split_once(' ') {
            let base = if base == "1" { Dir::Rtl } else { Dir::Ltr };
            let text = fs::read_to_string(&rt, path)?;
            time_text(&rt, alloc, base, text.as_str())?;
        }
    }
    Ok(())
}
PROGRAM

one_text bench_bidi_preview

cat >"$work/peer.c" <<'PEER'
#define _POSIX_C_SOURCE 200809L
#include <fribidi.h>
#include <stdint.h>
#include <stdio.h>
#include <stdlib.h>
#include <string.h>
#include <time.h>
#include <unicode/ubidi.h>
#include <unicode/ustring.h>

static double levels_time = 1e18, whole_time = 1e18;

static double now(void) {
    struct timespec t;
    clock_gettime(CLOCK_PROCESS_CPUTIME_ID, &t);
    return t.tv_sec * 1e9 + t.tv_nsec;
}

static void *need(void *p) {
    if (!p) {
        fprintf(stderr, "no answer\n");
        exit(1);
    }
    return p;
}

static void took(double start, double levels) {
    double end = now();
    if (levels - start < levels_time) levels_time = levels - start;
    if (end - start < whole_time) whole_time = end - start;
}

static void by_fribidi(const FriBidiChar *text, int n, int right_to_left) {
    double start = now();
    FriBidiCharType *types = need(malloc(sizeof *types * n));
    FriBidiBracketType *brackets = need(malloc(sizeof *brackets * n));
    FriBidiLevel *levels = need(malloc(n));
    FriBidiParType base = right_to_left ? FRIBIDI_PAR_RTL : FRIBIDI_PAR_LTR;
    fribidi_get_bidi_types(text, n, types);
    fribidi_get_bracket_types(text, n, types, brackets);
    need((void *)(intptr_t)fribidi_get_par_embedding_levels_ex(types, brackets, n, &base, levels));
    double middle = now();
    FriBidiStrIndex *map = need(malloc(sizeof *map * n));
    for (int i = 0; i < n; i++) map[i] = i;
    need((void *)(intptr_t)fribidi_reorder_line(FRIBIDI_FLAGS_DEFAULT, types, n, 0, base, levels, NULL, map));
    took(start, middle);
    free(types);
    free(brackets);
    free(levels);
    free(map);
}

static void by_icu(const UChar *text, int n, int right_to_left) {
    UErrorCode error = U_ZERO_ERROR;
    double start = now();
    UBiDi *bidi = ubidi_openSized(n, 0, &error);
    ubidi_setPara(bidi, text, n, right_to_left ? UBIDI_RTL : UBIDI_LTR, NULL, &error);
    need((void *)ubidi_getLevels(bidi, &error));
    double middle = now();
    int32_t *map = need(malloc(sizeof *map * n));
    ubidi_getVisualMap(bidi, map, &error);
    took(start, middle);
    need(U_SUCCESS(error) ? map : NULL);
    free(map);
    ubidi_close(bidi);
}

int main(int count, char **words) {
    if (count != 4) return 2;
    int is_fribidi = !strcmp(words[1], "fribidi"), right_to_left = words[2][0] == '1';
    FILE *file = need(fopen(words[3], "rb"));
    fseek(file, 0, SEEK_END);
    long size = ftell(file);
    rewind(file);
    char *bytes = need(malloc(size + 1));
    UChar *units = need(malloc(sizeof *units * (size + 1)));
    UChar32 *characters = need(malloc(sizeof *characters * (size + 1)));
    need((void *)fread(bytes, 1, size, file));
    UErrorCode error = U_ZERO_ERROR;
    int32_t unit_count = 0, n = 0;
    u_strFromUTF8(units, size + 1, &unit_count, bytes, size, &error);
    u_strToUTF32(characters, size + 1, &n, units, unit_count, &error);
    for (int i = 0; i < 5; i++) {
        if (is_fribidi) by_fribidi((const FriBidiChar *)characters, n, right_to_left);
        else by_icu(units, unit_count, right_to_left);
    }
    printf("  %s: levels %.1f ns a character, %.0f MiB a second; with the order %.1f, %.0f\n", words[1],
        levels_time / n, size / 1.048576e6 / levels_time * 1e9, whole_time / n, size / 1.048576e6 / whole_time * 1e9);
}
PEER
cc -O2 -std=c11 -o "$work/peer" "$work/peer.c" $(pkg-config --cflags --libs fribidi icu-uc)

measure bench_bidi_preview </dev/null
# what calls itself in fribidi once for each bracket needs a long stack
ulimit -s unlimited 2>/dev/null || true

# line NAME BASE PIECE: a line of so many whole pieces as 1 MiB has room for, by all programs.
line() {
    python3 -c 'import os, sys
piece = os.fsencode(sys.argv[1])
sys.stdout.buffer.write(piece * (1048576 // len(piece)))' "$3" >"$work/text"
    echo "$1"
    "$work/crates/bench_bidi_preview/out/bench_bidi_preview" <<<"$2 $work/text"
    for peer in fribidi icu; do
        timeout 60 "$work/peer" "$peer" "$2" "$work/text" 2>/dev/null || echo "  $peer: ended with $? (124 is 60 seconds)"
    done
}

line 'Latin words' 0 'The quick brown fox jumps over 12 lazy dogs, and no more. '
line 'one Latin letter' 0 'a'
line 'Hebrew words, from right to left' 1 'שלום עולם, זה מבחן של מילים בעברית (ועוד). '
line 'Hebrew words and numbers, from right to left' 1 'שלום עולם, זה מבחן של 12 מילים בעברית (ועוד). '
line 'mixed text' 0 'The quick brown fox, שלום עולם! 12,345.67 km; مرحبا ۱۲ http://example.org/a?b=c 中文。 café (50%) €9 😀 '
line 'brackets' 0 '([{}])'
line 'brackets that nothing closes' 0 '('
line 'isolates 125 deep' 0 "$(printf '\u2067%.0s' {1..125})aא$(printf '\u2069%.0s' {1..125})"
