#!/usr/bin/env python3
"""Writes the rows of examples/shop as crates/run_tests/src/example.rt; with --check it says whether they stand there."""
import os
import sys

TOP = os.path.join(os.path.dirname(os.path.abspath(__file__)), "..")
TARGET = f"{TOP}/crates/run_tests/src/example.rt"
SOURCES = ["layout.soy", "list.soy", "product.soy"]
HEAD = """\
//! The pages of examples/shop, whose files stand here as .ci/example.py writes them.

use crate::running::{Row, is_answered};
use soy_top::Status;

"""
TAIL = """
#[test]
fn pages_of_the_example(rt: HostRuntime) {
    for row in PAGES {
        assert!(rt; is_answered(rt.alloc(), row), "row {}", row.0);
    }
}
"""


def text_of(name):
    with open(f"{TOP}/examples/shop/{name}") as file:
        return file.read()


def literal(text):
    """A string literal, a line of the text in each of its own."""
    lines = text.splitlines(keepends=True)
    escaped = [line.replace("\\", "\\\\").replace('"', '\\"').replace("\n", "\\n") for line in lines]
    parts = []
    for line in escaped:
        # (a line of the literal that goes on loses the white space that the next begins with)
        while len(line) > 70:
            cut = 70
            while line[cut - 1] in "\\ " or line[cut] == " ":
                cut -= 1
            parts.append(line[:cut])
            line = line[cut:]
        parts.append(line)
    joined = ""
    for number, part in enumerate(parts):
        end = len(part) - len(part.lstrip(" "))
        begun = part if number == 0 or end == 0 else "\\x20" + part[1:]
        joined += ("" if number == 0 else "\\\n     ") + begun
    return f'"{joined}"'


def constant(name, file):
    return f"const {name}: &str = {literal(text_of(file))};\n\n"


def row(name, words, files, page):
    held = "".join(f'            ("{file}", {of}),\n' for file, of in files)
    return f'    (\n        "{name}",\n        "{words}",\n        &[\n{held}        ],\n        Status::Done,\n        {page},\n        "",\n    ),\n'


def module():
    made = HEAD
    for file in SOURCES:
        made += constant(file.split(".")[0].upper(), file)
    made += constant("DATA", "data.json") + constant("DATA_HE", "data.he.json") + constant("HE", "he.json")
    made += constant("PAGE_EN", "page.en.html") + constant("PAGE_HE", "page.he.html")
    held = [(file, file.split(".")[0].upper()) for file in SOURCES]
    names = " ".join(SOURCES)
    made += "/// The page in both languages.\nconst PAGES: &[Row] = &[\n"
    made += row("in English", f"render shop.list.main data.json - {names}", [("data.json", "DATA"), *held], "PAGE_EN")
    made += row("in Hebrew", f"render shop.list.main data.he.json he.json {names}", [("data.he.json", "DATA_HE"), ("he.json", "HE"), *held], "PAGE_HE")
    return made + "];\n" + TAIL


def main():
    if "--check" not in sys.argv:
        with open(TARGET, "w") as file:
            file.write(module())
        return 0
    with open(TARGET) as file:
        if file.read() == module():
            return 0
    print("crates/run_tests/src/example.rt isn't what .ci/example.py makes of examples/shop: run it")
    return 1


if __name__ == "__main__":
    sys.exit(main())
