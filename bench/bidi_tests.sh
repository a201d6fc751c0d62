#!/usr/bin/env bash
# Runs the lines of Unicode's tests of bidirectional text, BidiCharacterTest.txt and BidiTest.txt, through `levels`, and
# as pages through `preview`. Counts the lines whose levels, and the pages whose characters from left to right, are those
# of the test. Counted apart are lines whose base the test has to find (its auto direction, for which the base is found
# here); those that end with a separator of paragraphs, which is in no line of a page, so that `levels` is given what
# stands before it; and those that hold a character to which this project's table gives another class than Unicode's.
# Of those that differ the first is printed. A line with a tab, which is a space in a line of a page, is no page here.
# BidiTest.txt names classes: a character of the class stands for each, another for the second of one class. The files
# are those of Debian's package unicode-data, or of the folder that is named. It needs python3. Run it from anywhere:
# `bench/bidi_tests.sh [FOLDER]`.
set -eu
. "$(dirname "$0")/setup.sh"
folder=${1-/usr/share/unicode}

begin bench_bidi_tests soy_base esc_table bidi_class script_state html_state bidi_text bidi_order bidi_preview <<'PROGRAM'
//! Reads lines from standard input: `class`, or `levels` or `page` and a base of 0 or 1, and characters by their numbers
//! in hexadecimal digits. Answers each by a line: the classes of the characters, their levels, or the numbers of the
//! characters of the lines that are shown, each line after a `;`.
#![tactic(auto)]

mod one_text;

use crate::one_text::read_page;
use bidi_class::class_of;
use bidi_preview::{levels, preview};
use soy_base::{Code, Dir, Seq, Text};
use std::alloc::Global;
use std::io;
use std::io::{BufRead, BufReader, BufWriter, Write};

/// The characters of a line of numbers.
fn read_characters(alloc: Global, numbers: &str) -> io::Result<Vec<char>> {
    let mut line = Vec::new(alloc);
    for number in numbers.split_whitespace() {
        let Ok(number) = u32::from_str_radix(number, 16) else {
            continue;
        };
        if let Some(c) = char::from_u32(number) {
            line.push(c)?;
        }
    }
    Ok(line)
}

/// A page of one line of these characters.
fn page_of(alloc: Global, line: &[char]) -> io::Result<String> {
    let mut page = String::new(alloc);
    for c in line {
        match *c {
            '<' => page.push_str("&lt;")?,
            '&' => page.push_str("&amp;")?,
            c => page.push(c)?,
        }
    }
    Ok(page)
}

fn write_classes<W: Write>(out: &mut W, line: &[char]) -> io::Result<()> {
    for c in line {
        let class = class_of(*c);
        write!(out, "{class:?} ")?;
    }
    writeln!(out)
}

fn write_levels<W: Write>(out: &mut W, alloc: Global, base: Dir, line: &[char]) -> io::Result<()> {
    let Ok(levels) = levels(alloc, base, line) else {
        return writeln!(out, "no levels");
    };
    for level in levels.items() {
        match level {
            Some(level) => write!(out, "{level} ")?,
            None => write!(out, "x ")?,
        }
    }
    writeln!(out)
}

/// The lines of a page, none where memory runs out, or its fault.
fn shown(alloc: Global, base: Dir, page: &str) -> Result<Option<Seq<Text>>, Code> {
    read_page(page)?;
    Ok(preview(alloc, page, base).ok())
}

fn write_page<W: Write>(out: &mut W, alloc: Global, base: Dir, page: &str) -> io::Result<()> {
    let Ok(Some(lines)) = shown(alloc, base, page) else {
        return writeln!(out, "no lines");
    };
    for line in lines.items() {
        write!(out, ";")?;
        for c in line.text().chars() {
            let number = u32::from(c);
            write!(out, " {number:x}")?;
        }
    }
    writeln!(out)
}

fn answer<W: Write>(out: &mut W, alloc: Global, asked: &str) -> io::Result<()> {
    let Some((word, rest)) = asked.split_once(' ') else {
        return writeln!(out);
    };
    if word == "class" {
        let line = read_characters(alloc, rest)?;
        return write_classes(out, line.as_slice());
    }
    let Some((base, numbers)) = rest.split_once(' ') else {
        return writeln!(out);
    };
    let base = if base == "1" { Dir::Rtl } else { Dir::Ltr };
    let line = read_characters(alloc, numbers)?;
    if word == "levels" {
        return write_levels(out, alloc, base, line.as_slice());
    }
    let page = page_of(alloc, line.as_slice())?;
    write_page(out, alloc, base, page.as_str())
}

fn main(rt: HostRuntime) -> io::Result<()> {
    let alloc = rt.alloc();
    let mut out = BufWriter::new(alloc, io::writer(&rt))?;
    for asked in BufReader::new(alloc, rt.reader())?.lines(alloc) {
        let asked = asked?;
        answer(&mut out, alloc, asked.as_str())?;
    }
    out.flush()
}
PROGRAM

one_text bench_bidi_tests

measure bench_bidi_tests </dev/null

cat >"$work/tests.py" <<'SCRIPT'
import collections
import subprocess
import sys

folder, driver = sys.argv[1:]
# characters that stand for a class of BidiTest.txt: the first for the first of that class in a line
SAMPLES = {
    "L": "abcdefgh", "R": "\u05d0\u05d1\u05d2\u05d3\u05d4\u05d5\u05d6\u05d7",
    "AL": "\u0627\u0628\u062a\u062b\u062c\u062d\u062e\u062f", "EN": "01234567", "AN": "\u0660\u0661\u0662\u0663\u0664",
    "ES": "+-\u207a\u207b\u2212", "ET": "#$%\u00a2\u00a3\u00a4", "CS": ",./:\u00a0\u060c",
    "NSM": "\u0300\u0301\u0302\u0303\u0304", "ON": "!\"*;=?@", "WS": " \u2000\u2001\u2002\u2003\u2004",
    "BN": "\u00ad\u200b\u2060", "S": "\u000b\u001f", "B": "\u2029\u001c\u001d", "LRE": "\u202a", "RLE": "\u202b",
    "PDF": "\u202c", "LRO": "\u202d", "RLO": "\u202e", "LRI": "\u2066", "RLI": "\u2067", "FSI": "\u2068",
    "PDI": "\u2069",
}
LONG = {"Left_To_Right": "L", "Right_To_Left": "R", "Arabic_Letter": "AL", "European_Terminator": "ET",
        "Boundary_Neutral": "BN"}


def fields(name):
    with open(f"{folder}/{name}", encoding="utf-8") as file:
        for line in file:
            line = line.split("#")[0].strip()
            if line:
                yield [field.strip() for field in line.split(";")]


def standard_classes():
    """The classes of Unicode, by ranges: those of characters, and before them those of what has no character yet."""
    ranges = []
    with open(f"{folder}/extracted/DerivedBidiClass.txt", encoding="utf-8") as file:
        ranges = [line[len("# @missing:"):].split("#")[0].split(";") for line in file if line.startswith("# @missing:")]
    ranges += fields("extracted/DerivedBidiClass.txt")
    found = []
    for numbers, name in ranges:
        low, _, high = numbers.strip().partition("..")
        found.append((int(low, 16), int(high or low, 16), LONG.get(name.strip(), name.strip())))
    return found


def of_characters():
    """Each line of BidiCharacterTest.txt: characters, base, whether it was found, levels, order."""
    for numbers, direction, base, levels, order in fields("BidiCharacterTest.txt"):
        text = "".join(chr(int(number, 16)) for number in numbers.split())
        yield text, int(base), direction == "2", levels.split(), [int(i) for i in order.split()]


def found_base(names):
    """P2 and P3: the base by the first strong class outside isolates."""
    depth = 0
    for name in names:
        if name in ("LRI", "RLI", "FSI"):
            depth += 1
        elif name == "PDI":
            depth = max(depth - 1, 0)
        elif depth == 0 and name in ("L", "R", "AL"):
            return int(name != "L")
        elif name == "B":
            break
    return 0


def of_classes():
    """Each line of BidiTest.txt at each of its bases."""
    levels, order = [], []
    for first, *rest in fields("BidiTest.txt"):
        if first.startswith("@Levels:"):
            levels = first.split()[1:]
        elif first.startswith("@Reorder:"):
            order = [int(i) for i in first.split()[1:]]
        elif not first.startswith("@"):
            names = first.split()
            text = "".join(SAMPLES[n][names[:i].count(n) % len(SAMPLES[n])] for i, n in enumerate(names))
            bits = int(rest[0], 16)
            if bits & 1:
                yield text, found_base(names), True, levels, order
            if bits & 2:
                yield text, 0, False, levels, order
            if bits & 4:
                yield text, 1, False, levels, order


def numbers(text):
    return " ".join(f"{ord(c):x}" for c in text)


def answers(asked):
    """The lines that the driver answers."""
    with open("asked", "w") as file:
        file.writelines(line + "\n" for line in asked)
    with open("asked") as file, open("answered", "w") as out:
        subprocess.run([driver], stdin=file, stdout=out, check=True)
    with open("answered") as file:
        return file.read().split("\n")[:-1]


def seen(text, order):
    """What `preview` shows of the line: no isolate controls, and nothing where only white space is left."""
    shown = [text[i] for i in order if not "\u2066" <= text[i] <= "\u2069"]
    return "; " + " ".join(f"{ord(c):x}" for c in shown) if any(table[c] != "WS" for c in shown) else ""


def sort_of(text, is_found):
    sorts = []
    if any(table[c] != standard[c] for c in text):
        sorts.append("a class that the table gives otherwise")
    if table.get(text[-1]) == "B":
        sorts.append("a separator of paragraphs")
    if is_found:
        sorts.append("a base that is to be found")
    return "; ".join(sorts) or "all others"


tests = {"BidiCharacterTest.txt": list(of_characters()), "BidiTest.txt": list(of_classes())}
characters = sorted({c for lines in tests.values() for text, *_ in lines for c in text})
table = dict(zip(characters, answers(["class " + numbers(characters)])[0].split()))
standard = {}
for low, high, name in standard_classes():
    standard.update((c, name) for c in characters if low <= ord(c) <= high)
for name, samples in SAMPLES.items():
    for c in samples:
        if table.get(c, name) != name:
            print(f"U+{ord(c):04X} stands for {name} and has the class {table[c]}")
differing = [c for c in characters if table[c] != standard[c]]
print(f"{len(characters)} characters, {len(differing)} of them of a class that the table gives otherwise",
      *(f"U+{ord(c):04X}" for c in differing))

for name, lines in tests.items():
    asked, wanted = [], []
    for text, base, is_found, levels, order in lines:
        count = len(text) - (table[text[-1]] == "B")
        sort = sort_of(text, is_found)
        asked.append(f"levels {base} {numbers(text[:count])}")
        wanted.append((sort, "lines", " ".join(levels[:count])))
        if not any(c in "\t\n\f\r" for c in text):
            asked.append(f"page {base} {numbers(text)}")
            wanted.append((sort, "pages", seen(text, [i for i in order if i < count])))
    counts, first = collections.Counter(), {}
    for question, (sort, what, answer), given in zip(asked, wanted, answers(asked), strict=True):
        is_same = given.strip() == answer
        counts[sort, what, is_same] += 1
        if not is_same:
            first.setdefault((sort, what), f"{question}: {given}, and not {answer}")
    for sort in sorted({key[0] for key in counts}):
        known = [f"{counts[sort, what, True]} {what} as in the test and {counts[sort, what, False]} otherwise"
                 for what in ("lines", "pages")]
        print(f"{name}, {sort}: {', '.join(known)}")
        for what in ("lines", "pages"):
            if (sort, what) in first:
                print(f"  the first of these {what}: {first[sort, what]}")
SCRIPT
cd "$work"
python3 tests.py "$folder" "$work/crates/bench_bidi_tests/out/bench_bidi_tests"
