#!/usr/bin/python3
"""Renders pages with two data each, which make the same choices and hold hostile texts, and compares what stands around
the values: the tokens by html5lib, those of scripts by acorn and of styles by tinycss2, and on each line the visual
order by ICU. None of these is a part of this project.

    two_data.py [--soyc COMMAND] [--pages N] [--pairs N] [--seed K] [--keep FOLDER]

COMMAND is a line of words (./soyc). N pages are made at random, each rendered with N pairs of data, and those of
examples/ too. It prints counts and each pair that differs, and ends with 1 where one does. Needs Debian's packages
python3-html5lib, python3-tinycss2, libicu72, nodejs and node-acorn.
"""
import argparse
import concurrent.futures
import copy
import ctypes
import json
import os
import random
import shlex
import struct
import subprocess
import sys
import tempfile

import tinycss2
from html5lib._tokenizer import HTMLTokenizer
from html5lib.constants import tokenTypes

TOP = os.path.dirname(os.path.dirname(os.path.abspath(__file__)))
VALUE = "\uf8ff"  # (a character of private use, which no page here has)
DEEP = 60

# ---- hostile texts

LRE, RLE, LRO, RLO, PDF = "\u202a", "\u202b", "\u202d", "\u202e", "\u202c"
LRI, RLI, FSI, PDI = "\u2066", "\u2067", "\u2068", "\u2069"
# fmt: off
HOSTILE = [
    "", "a", "7", "-5", "++C", "C++", "?", "(", ")", "[x)", "a(b", ") (", "'", '"', "\\", "\\'", "`", "a b", " a ",
    "\t", "\n", "\r\n", "\u05d0", "\u05e9\u05dc\u05d5\u05dd", "\u05d0 b \u05d2", "1 \u05d0 2", "\u0627\u0644\u0639",
    "\u0661\u0662", "12 \u0627 34", "\u05d0!", "!\u05d0", "3.5%", "$5", "5-6", "</b>", "</span>", "</p><p>", "<b",
    "<!--", "-->", "]]>", "</script>", "<script>alert(1)</script>", "</style>", "</title>", "</textarea>", "<svg>",
    "<plaintext>", "javascript:alert(1)", "JaVaScRiPt:alert(1)", "data:text/html,x", "https://a.example/\u05d0",
    "//a.example", "/p?q=1&r#s", "mailto:a@b", "a&b", "&amp;", "&lt;b&gt;", "&#8238;", "&#x202e;", "&quot;",
    "' onclick='x", '" onclick="x', "/*", "*/", "//", "${x}", "</x", "<%", "expression(1)", "url(x)", "red", "#fff",
    "1px", "}", "{", ";", "<!", "--!>", LRE, RLE + "x", LRO + "a", RLO + "b", PDF, PDF * 3, LRI, RLI + "\u05d0",
    FSI + "x", PDI, PDI * 4 + "a", RLI * 5, RLI + "a" + PDI, LRI + RLI + PDI, RLO + "a" + PDF,
    FSI + "\u05d0" + PDI + PDI, "\u200e", "\u200f", "\u061c", "\u200b", "\u00ad", "\u2028", "\u2029", "\u0085",
    "\u000b", "\u001c", "\u001f", "\u0000", "\ufeff", "\u00a0", "\u0300", "a\u0300", "\u2329x\u3009", "\U0001f600",
    "\U00010800", "(" * 70 + "\u05d0" + ")" * 70, (RLI + "\u05d0") * 130, RLE * 130 + "a", "a" * 300, "\u05d0" * 40,
]
# fmt: on


def hostile(chance):
    text = chance.choice(HOSTILE)
    while chance.random() < 0.4:
        text += chance.choice(HOSTILE)
    return text


# ---- templates at random

# fmt: off
WORDS = [
    "a", "one", "of (two)", "\u05d0\u05d1", "\u05e9\u05dc\u05d5\u05dd, ", "\u0627\u0644", "12", " 3-4 ", "! ", "? ",
    "[", "]", "(", ")", "&amp;", "&lt;", "&rlm;", "&#8294;", "&#8297;", "\u2067", "\u2069", "\u202e", "\u202c",
    "\u202b", ".", ":", "%", " - ",
]
# fmt: on
INLINE = ["b", "i", "em", "q", "bdi", "bdo", "span", "small", "code"]
BLOCK = ["p", "div", "li", "h1", "td", "section"]
VOID = ["<br>", "<hr>", "<img alt=\"\" src=\"/x.png\">", "<input>", "<wbr>", "<!-- a comment -->", "\n"]


class Page:
    """A file of templates. Each parameter is printed or makes a choice, and none does both but loops' lists."""

    def __init__(self, chance):
        self.chance, self.lets = chance, 0
        self.main = self.body(0, ["$t0", "$t1", "$t2"])
        called = ["$s", "$s"]
        self.row, self.words = self.body(2, called), self.text(called)
        self.bits = self.attributes(called)

    def pick(self, *of):
        return self.chance.choice(of)

    def dir(self):
        return self.pick(
            "",
            "",
            ' dir="rtl"',
            ' dir="ltr"',
            " dir=auto",
            ' dir="&#114;tl"',
            ' DIR="RTL"',
            ' dir="x" dir="rtl"',
            " dir",
        )

    def text(self, values):
        made = ""
        while self.chance.random() < 0.7:
            made += self.chance.choice(WORDS) if self.chance.random() < 0.65 else self.print(values)
        return made

    def print(self, values):
        value = self.chance.choice(values)
        return self.pick("{%s}" % value, "{%s}" % value, "{%s + '!'}" % value, "{$k}", "{$f ? %s : 'x'}" % value)

    def attributes(self, values):
        value = self.chance.choice(values)
        return self.pick(
            f' title="{{{value}}}"',
            f" title='a{{{value}}}b'",
            f' class="x{{$k}} {{{value}}}"',
            ' hidden',
            f' style="color: {{{value}}}; width: 1px"',
            f""" style="font-family: '{{{value}}}'" """,
            ' lang="he"',
        )

    def link(self, values):
        value = self.chance.choice(values)
        return self.pick(
            f'<a href="{{{value}}}">',
            f'<a href="/{{{value}}}/x">',
            f'<a href="?q={{{value}}}&amp;r={{{value}}}">',
            f'<a href="#{{{value}}}" title="{{{value}}}">',
        )

    def raw(self, values):
        value = self.chance.choice(values)
        return self.pick(
            f"<script>var a = {{{value}}}, b = {{$k}}; f('x{{{value}}}y', \"{{{value}}}\");</script>",
            f"<textarea>x{{{value}}}y</textarea>",
            f"<title>{{{value}}}</title>",
            f"<style>p {{lb}} color: {{{value}}}; margin: 0 {{$k}} 1px; content: '{{{value}}}' {{rb}}</style>",
            "<xmp>a <b></xmp>",
        )

    def item(self, depth, values):
        kind = self.chance.randrange(17)
        inner = lambda more=1: self.body(depth + more, values)
        if kind < 3:
            return self.text(values)
        if kind == 3:
            name = self.chance.choice(INLINE)
            return f"<{name} class=s{self.dir()}>{inner()}" + ("" if self.chance.random() < 0.1 else f"</{name}>")
        if kind == 4:
            name = self.chance.choice(BLOCK)
            return f"<{name} class=s{self.dir()}>{inner()}" + ("" if self.chance.random() < 0.2 else f"</{name}>")
        if kind == 5:
            return self.chance.choice(VOID)
        if kind == 6:
            return (
                f"{{if $c{self.chance.randrange(3)}}}{inner()}"
                + self.pick("", f"{{else}}{inner()}", f"{{elseif $n > 1}}{inner()}")
                + "{/if}"
            )
        if kind == 7:
            return f"{{switch $n}}{{case 0, 1}}{inner()}{{case 2}}{inner()}{{default}}{inner()}{{/switch}}"
        if kind == 8:
            self.lets += 1
            return (
                f"{{for $x{self.lets}, $y{self.lets} in $l}}"
                + self.body(depth + 1, [*values, f"$x{self.lets}.a", f"$x{self.lets}.b"])
                + "{/for}"
            )
        if kind == 9:
            return self.link(values) + inner() + "</a>"
        if kind == 10:
            return self.raw(values)
        if kind == 11:
            self.lets += 1
            return f'{{let $b{self.lets} kind="html"}}{inner()}{{/let}}{{$b{self.lets}}}' + self.pick(
                "", f"{{$b{self.lets}}}"
            )
        if kind == 12:
            self.lets += 1
            block = f'{{let $a{self.lets} kind="attributes"}}class=s{self.attributes(values)}{{/let}}'
            return f'{block}<p {{$a{self.lets}}}>{inner()}</p>'
        if kind == 13:
            return (
                f"{{call row}}{{param s: {self.chance.choice(values)} /}}{{param k: $k /}}{{param f: $f /}}"
                "{param l: $l /}{param n: $n /}" + "".join(f"{{param c{i}: $c{i} /}}" for i in range(3)) + "{/call}"
            )
        if kind == 14:
            value = self.chance.choice(values)
            return f"{{call words}}{{param s: {value} /}}{{param k: $k /}}{{param f: $f /}}{{/call}}"
        if kind == 15:
            name = f'{{{self.chance.choice(values)} phname="NAME"}}'
            count = '<b class=s>{$k phname="COUNT"}</b>'
            return f'{{msg desc="m"}}{self.pick("Hello ", "")}{name}, {count}{self.pick("!", "")}{{/msg}}'
        nests = self.chance.randrange(1, 70)
        name = self.pick("span", "bdo", "bdi")
        opened = f'<{name} class=s dir="{self.pick("rtl", "ltr", "auto")}">'
        return f"{opened * nests}{self.text(values)}{f'</{name}>' * nests}"

    def body(self, depth, values):
        if depth > 3:
            return self.text(values)
        return "".join(self.item(depth, values) for _ in range(self.chance.randrange(1, 5)))

    def source(self):
        common = "{@param k: int}{@param f: bool}"
        choosing = (
            "{@param n: int}"
            + "".join(f"{{@param c{i}: bool}}" for i in range(3))
            + "{@param l: list<[a: string, b: string]>}"
        )
        return (
            "{namespace g}\n{template main}\n"
            + "".join(f"{{@param t{i}: string}}" for i in range(3))
            + common
            + choosing
            + "\n"
            + self.main
            + "\n{/template}\n"
            "{template row}\n{@param s: string}" + common + choosing + "\n" + self.row + "\n{/template}\n"
            '{template words kind="text"}\n{@param s: string}' + common + "\n{$s} {$k}{if $f}!{/if}\n{/template}\n"
        )

    def choices(self):
        return {
            "n": self.chance.randrange(4),
            "f": self.chance.random() < 0.5,
            **{f"c{i}": self.chance.random() < 0.5 for i in range(3)},
            "items": self.chance.randrange(4),
        }

    def data(self, choices):
        made = {f"t{i}": hostile(self.chance) for i in range(3)}
        made["k"] = self.chance.choice([0, 1, -1, 7, -2147483648, 9007199254740991])
        made["l"] = [{"a": hostile(self.chance), "b": hostile(self.chance)} for _ in range(choices["items"])]
        return {**made, **{name: choices[name] for name in choices if name != "items"}}


# ---- a page's tokens

RCDATA, RAWTEXT = {"title", "textarea"}, {"style", "xmp", "iframe", "noembed", "noframes", "noscript"}


def tokens_of(page):
    """What html5lib reads: ("text", text), ("start", name, attributes), ("end", name), ("comment", text),
    ("doctype", ..), and ("raw", name, text) for what stands in an element whose text is no markup."""
    tokenizer, found, inside = HTMLTokenizer(page), [], None
    kinds = {number: name for name, number in tokenTypes.items()}
    for token in tokenizer:
        kind = kinds[token["type"]]
        if kind in ("Characters", "SpaceCharacters"):
            last = found[-1] if found else None
            if inside:
                found[-1] = ("raw", inside, last[2] + token["data"])
            elif last and last[0] == "text":
                found[-1] = ("text", last[1] + token["data"])
            else:
                found.append(("text", token["data"]))
        elif kind in ("StartTag", "EmptyTag"):
            name = token["name"]
            found.append(("start", name, list(token["data"].items())))
            state = (
                "rcdataState"
                if name in RCDATA
                else "rawtextState"
                if name in RAWTEXT
                else "scriptDataState"
                if name == "script"
                else None
            )
            if state:
                tokenizer.state, inside = getattr(tokenizer, state), name
                # (an end tag is looked for by the tag before it)
                tokenizer.currentToken = {"name": name}
                found.append(("raw", name, ""))
        elif kind == "EndTag":
            inside = None
            found.append(("end", token["name"]))
        elif kind == "Comment":
            found.append(("comment", token["data"]))
        elif kind == "Doctype":
            found.append(("doctype", token["name"], token["publicId"], token["systemId"]))
    return found


def is_span_of_value(token):
    return token[0] == "start" and token[1] == "span" and [name for name, _ in token[2]] == ["dir"]


def with_values(tokens):
    """The tokens with each value's span as ("value", text, its direction)."""
    found, at = [], 0
    while at < len(tokens):
        if is_span_of_value(tokens[at]):
            text = tokens[at + 1][1] if tokens[at + 1][0] == "text" else ""
            close = at + (2 if tokens[at + 1][0] == "text" else 1)
            if tokens[close] != ("end", "span"):
                raise ValueError(f"a value's span holds {tokens[close]}")
            found.append(("value", text, tokens[at][2][0][1]))
            at = close + 1
        else:
            found.append(tokens[at])
            at += 1
    return found


WORD_PARTS = {"ident", "number", "dimension", "percentage", "hash"}


def css_kinds(text, has_rules):
    """The kinds of a style's tokens. A value of a style has letters, digits, `.`, `%`, `#`, `_` and `-`, of which the
    tokenizer may make several tokens: those that stand directly beside one another count as one word."""
    made = tinycss2.parse_stylesheet(text) if has_rules else tinycss2.parse_component_value_list(text)
    kinds = []

    def walk(nodes):
        for node in nodes:
            is_part = node.type in WORD_PARTS or (node.type == "literal" and node.value in ".%#_-")
            if not (is_part and kinds and kinds[-1] == "word"):
                kinds.append("word" if is_part else node.type)
            for part in ("prelude", "content", "arguments"):
                inner = getattr(node, part, None)
                if inner:
                    kinds.append("begin")
                    walk(inner)
                    kinds.append("end")

    walk(made)
    return kinds


def around(tokens, scripts):
    """What has to be the same in both pages, as one list; scripts is given the texts of scripts, for acorn."""
    found = []
    for token in tokens:
        if token[0] == "value":
            found.append("value")
        elif token[0] == "start":
            found.append(
                (
                    token[0],
                    token[1],
                    [name for name, _ in token[2]],
                    [css_kinds(text, False) for name, text in token[2] if name == "style"],
                    [text for name, text in token[2] if name in ("dir", "hidden")],
                )
            )
        elif token[0] == "raw" and token[1] == "script":
            scripts.append(token[2])
            found.append(("raw", "script"))
        elif token[0] == "raw":
            found.append(
                (
                    "raw",
                    token[1],
                    css_kinds(token[2], True)
                    if token[1] == "style"
                    else token[2]
                    if token[1] not in RCDATA
                    else None,
                )
            )
        else:
            found.append(token)
    return found


ACORN = """
const acorn = require('acorn');
const sources = JSON.parse(require('fs').readFileSync(0, 'utf8'));
const kinds = [];
for (const source of sources) {
  const found = [];
  try {
    for (const token of acorn.tokenizer(source, {ecmaVersion: 2020})) {
      // (a value's number may have its sign)
      const kind = token.type.label;
      if (kind === '+/-') continue;
      found.push(['string', 'num', 'true', 'false', 'null'].includes(kind) ? 'literal' : kind + ':' + token.value);
    }
  } catch (error) { found.push('error ' + error.message); }
  kinds.push(found);
}
console.log(JSON.stringify(kinds));
"""


def script_kinds(sources):
    done = subprocess.run(
        ["node", "-e", ACORN],
        input=json.dumps(sources),
        capture_output=True,
        text=True,
        env={**os.environ, "NODE_PATH": "/usr/share/nodejs"},
        check=True,
    )
    return json.loads(done.stdout)


# ---- a page's lines

INLINES = set(
    "a abbr b bdi bdo big cite code data del dfn em font i ins kbd label mark q s samp small span strong sub sup time"
    " tt u var".split()
)
VOIDS = set("area base br col embed hr img input link meta source track wbr".split())
ICU = ctypes.CDLL("libicuuc.so.72")
ICU.ubidi_open_72.restype = ctypes.c_void_p
ICU.ubidi_close_72.argtypes = [ctypes.c_void_p]
ICU.ubidi_getVisualMap_72.argtypes = [ctypes.c_void_p] * 3
ICU.ubidi_setPara_72.argtypes = [ctypes.c_void_p, ctypes.c_void_p, ctypes.c_int32, ctypes.c_uint8] + [
    ctypes.c_void_p
] * 2


def kind_of(c):
    """The bidirectional class of a character, by ICU's number."""
    return ICU.u_charDirection_72(ord(c))


TYPES = {
    name: kind_of(c)
    for name, c in {
        "L": "a",
        "R": "\u05d0",
        "AL": "\u0627",
        "WS": " ",
        "S": "\t",
        "B": "\u2029",
        "BN": "\u200b",
    }.items()
}
CONTROLS = set(LRE + RLE + LRO + RLO + PDF + LRI + RLI + FSI + PDI)


class Element:
    def __init__(self, name, dir, label):
        self.name, self.dir, self.label = name, dir, label
        self.is_inline = name in INLINES
        # (where the direction goes by the text, the characters that stand for it are set at the element's end)
        self.is_auto = dir == "auto" or (name == "bdi" and dir is None)
        self.found = None
        self.cells = []

    def has_own(self):
        return self.dir is not None or self.is_auto

    def opening(self):
        if not self.has_own():
            return []
        if self.is_auto:
            cell = [LRI, self.label]
            self.cells.append(cell)
            return [cell]
        start = LRI if self.dir == "ltr" else RLI
        return (
            [[start, self.label], [LRO if self.dir == "ltr" else RLO, self.label]]
            if self.name == "bdo"
            else [[start, self.label]]
        )

    def closing(self):
        if not self.has_own():
            return []
        return (
            [[PDF, self.label], [PDI, self.label]] if self.name == "bdo" and not self.is_auto else [[PDI, self.label]]
        )

    def settle(self):
        for cell in self.cells:
            cell[0] = RLI if self.found == "rtl" else LRI


class Lines:
    """The lines of a page, each the element or the direction that gives its base, and cells: a character, and the
    number of the value that it is of, or None."""

    def __init__(self, tokens, context):
        self.context, self.open, self.all, self.line, self.done, self.values = context, [], [], [], [], 0
        self.base = context
        for token in tokens:
            getattr(self, token[0], self.other)(*token[1:])
        self.done.append((self.base, self.line))
        for element in self.all:
            element.settle()

    def other(self, *_):
        pass

    def end_line(self):
        self.done.append((self.base, self.line))
        self.base = next(
            (element for element in reversed(self.open) if not element.is_inline and element.has_own()), self.context
        )
        self.line = [cell for element in self.open if element.is_inline for cell in element.opening()]

    def text(self, text):
        for c in text:
            if kind_of(c) == TYPES["B"] and c not in "\n\r":
                self.end_line()
                continue
            kind = kind_of(c)
            if kind in (TYPES["L"], TYPES["R"], TYPES["AL"]):
                self.first_strong("ltr" if kind == TYPES["L"] else "rtl")
            self.line.append([" " if c in "\t\n\f\r" else c, None])

    def first_strong(self, direction):
        for element in reversed(self.open):
            if element.is_auto and element.found is None:
                element.found = direction
            # (an element inside with a direction of its own is left out of those around it)
            if element.has_own():
                break

    def start(self, name, attributes, label=None):
        given = next((text.lower() for attribute, text in attributes if attribute == "dir"), None)
        element = Element(name, given if given in ("ltr", "rtl", "auto") else None, label)
        if name not in VOIDS:
            self.open.append(element)
            self.all.append(element)
        if not element.is_inline:
            self.end_line()
        elif name not in VOIDS:
            self.line += element.opening()

    def end(self, name):
        at = next((at for at in reversed(range(len(self.open))) if self.open[at].name == name), None)
        if at is not None:
            for element in reversed(self.open[at:]):
                self.line += element.closing() if element.is_inline else []
            del self.open[at:]
        if name not in INLINES:
            self.end_line()

    def value(self, text, direction):
        self.start("span", [("dir", direction)], self.values)
        self.line += [[" " if c in "\t\n\f\r" else c, self.values] for c in text]
        self.end("span")
        self.values += 1


def nests(line):
    """The most initiators and embeddings of static text that are open at once."""
    most = now = 0
    for c, label in line:
        if label is None and c in LRE + RLE + LRO + RLO + LRI + RLI + FSI:
            now += 1
            most = max(most, now)
        elif label is None and c in PDI + PDF:
            now = max(now - 1, 0)
    return most


def visual_order(base, line):
    """The positions of the line's characters from left to right."""
    if not line:
        return []
    if isinstance(base, Element):
        base = (base.found or "ltr") if base.is_auto else base.dir
    # (a character above U+FFFF is two units, of which the first stands for it)
    units = [
        (unit, at)
        for at, (c, _) in enumerate(line)
        for unit in struct.unpack(f"<{len(c.encode('utf-16-le')) // 2}H", c.encode("utf-16-le"))
    ]
    count, failed = len(units), ctypes.c_int(0)
    text, places = (ctypes.c_uint16 * count)(*(unit for unit, _ in units)), (ctypes.c_int32 * count)()
    bidi = ICU.ubidi_open_72()
    ICU.ubidi_setPara_72(bidi, text, count, base == "rtl", None, ctypes.byref(failed))
    ICU.ubidi_getVisualMap_72(bidi, places, ctypes.byref(failed))
    ICU.ubidi_close_72(bidi)
    if failed.value > 0:
        raise ValueError(f"ICU's error {failed.value}")
    found = []
    for place in places:
        at = units[place][1]
        if not found or found[-1] != at:
            found.append(at)
    return found


def seen(line):
    left_out = {TYPES["WS"], TYPES["S"], TYPES["B"], TYPES["BN"]}
    return [c not in CONTROLS and kind_of(c) not in left_out for c, _ in line]


def order_of(base, line):
    """From left to right, each static character that is seen by its number, and each value once for each run of its
    characters."""
    is_seen, number, counts = seen(line), [], 0
    for (_, label), is_one in zip(line, is_seen):
        number.append(("value", label) if label is not None else ("static", counts))
        counts += label is None
    found = []
    for at in visual_order(base, line):
        if is_seen[at] and (number[at][0] == "static" or not found or found[-1] != number[at]):
            found.append(number[at])
    return found


def same_lines(one, other, counts):
    """What differs of the two pages' lines, or None."""
    if len(one) != len(other):
        return f"{len(one)} and {len(other)} lines"
    for (base, line), (other_base, other_line) in zip(one, other):
        counts["lines"] += 1
        if [c for c, label in line if label is None] != [c for c, label in other_line if label is None]:
            return "static characters of a line"
        if max(nests(line), nests(other_line)) > DEEP:
            counts["deep"] += 1
            continue
        first, second = order_of(base, line), order_of(other_base, other_line)
        for order in (first, second):
            if len(order) != len(set(order)):
                return f"something stands within a value: {order}"
        both = set(first) & set(second)
        if [it for it in first if it in both] != [it for it in second if it in both]:
            return f"the order {first} and {second}"
        counts["values"] += sum(it[0] == "value" for it in both)
    return None


# ---- pairs


class Job:
    """A template, its files and data in pairs."""

    def __init__(self, name, template, files, bundle, context, pairs):
        self.name, self.template, self.files, self.bundle, self.context, self.pairs = (
            name,
            template,
            files,
            bundle,
            context,
            pairs,
        )


def render(command, job, data, folder):
    with open(f"{folder}/data.json", "w") as file:
        json.dump(data, file)
    done = subprocess.run(
        [*command, "render", job.template, "data.json", job.bundle, *(it for it in job.files if it.endswith(".soy"))],
        cwd=folder,
        stdin=subprocess.DEVNULL,
        capture_output=True,
    )
    return done.returncode, done.stdout.decode()


def tried(command, job, keep):
    """Renders the pairs of a job: counts, and what differs."""
    counts, wrong = dict.fromkeys(("pairs", "refused", "too deep", "lines", "deep", "values", "tokens"), 0), []
    scripts, where = [], []
    with tempfile.TemporaryDirectory() as folder:
        for name, text in job.files.items():
            with open(f"{folder}/{name}", "w") as file:
                file.write(text)
        for number, pair in enumerate(job.pairs):
            status, pages = zip(*(render(command, job, data, folder) for data in pair))
            if status[0] == 5 and not number:
                counts["refused"] += 1
                break
            why = f"statuses {status}" if status[0] != status[1] or status[0] not in (0, 6) else None
            if not why:
                counts["pairs"] += 1
                counts["too deep"] += status[0] == 6
                texts = ([], [])
                try:
                    tokens = [with_values(tokens_of(page)) for page in pages]
                    ones = [around(it, text) for it, text in zip(tokens, texts)]
                    counts["tokens"] += len(ones[0])
                    if ones[0] != ones[1]:
                        at = next(
                            (at for at, both in enumerate(zip(*ones)) if both[0] != both[1]), min(map(len, ones))
                        )
                        why = f"tokens at {at}: {ones[0][at:at + 1]} and {ones[1][at:at + 1]}"
                    else:
                        why = same_lines(*(Lines(it, job.context).done for it in tokens), counts)
                except (ValueError, IndexError) as error:
                    why = str(error)
                scripts.append(texts)
                where.append((pair, pages))
            if why:
                wrong.append((why, pair, pages))
    kinds = script_kinds([text for texts in scripts for of in texts for text in of]) if any(scripts) else []
    for texts, (pair, pages) in zip(scripts, where):
        first, kinds = kinds[: len(texts[0])], kinds[len(texts[0]) :]
        second, kinds = kinds[: len(texts[1])], kinds[len(texts[1]) :]
        if first != second or any(it and it[-1].startswith("error") for it in first):
            wrong.append((f"scripts: {first} and {second}", pair, pages))
    for number, (_, pair, pages) in enumerate(wrong if keep else []):
        at = f"{keep}/{job.name}-{number}"
        os.makedirs(at, exist_ok=True)
        for name, text in [
            *job.files.items(),
            *((f"data.{i}.json", json.dumps(it)) for i, it in enumerate(pair)),
            *((f"page.{i}.html", it) for i, it in enumerate(pages)),
        ]:
            with open(f"{at}/{name}", "w") as file:
                file.write(text)
    return counts, [(job.name, why) for why, _, _ in wrong]


def page_jobs(pages, pairs, seed):
    for number in range(pages):
        chance = random.Random(f"{seed} {number}")
        page = Page(chance)
        choices = [page.choices() for _ in range(pairs)]
        yield Job(
            f"page{number}",
            "g.main",
            {"g.soy": page.source()},
            "-",
            "ltr",
            [(page.data(it), page.data(it)) for it in choices],
        )


def example_jobs(pairs, seed):
    """The pages of examples/, with texts in the data made hostile, but for those by which a template chooses."""
    chance = random.Random(f"{seed} examples")

    def changed(value, name=""):
        if isinstance(value, dict):
            return {key: changed(it, key) for key, it in value.items()}
        if isinstance(value, list):
            return [changed(it, name) for it in value]
        if isinstance(value, str):
            return hostile(chance) if name != "visitor" else hostile(chance) or "x"
        return chance.randrange(-9, 9999) if name == "cents" else value

    def read(*names):
        files = {}
        for name in names:
            with open(f"{TOP}/examples/{name}") as file:
                files[os.path.basename(name)] = file.read()
        return files

    shop = read("shop/layout.soy", "shop/list.soy", "shop/product.soy")
    for data, bundle, context in (("data.json", None, "ltr"), ("data.he.json", "he.json", "rtl")):
        given = json.loads(read(f"shop/{data}")[data])
        files = {**shop, **(read(f"shop/{bundle}") if bundle else {})}
        made = [(changed(copy.deepcopy(given)), changed(copy.deepcopy(given))) for _ in range(pairs)]
        job = Job(
            f"shop-{bundle or 'source'}",
            "shop.list.main",
            {name: text for name, text in files.items()},
            bundle or "-",
            context,
            made,
        )
        yield job
    hello = read("hello/page.soy")
    yield Job(
        "hello",
        "hello.page",
        hello,
        "-",
        "ltr",
        [tuple({"name": hostile(chance), "rule": hostile(chance)} for _ in range(2)) for _ in range(pairs)],
    )


def main():
    parser = argparse.ArgumentParser()
    parser.add_argument("--soyc", default=f"{TOP}/soyc")
    parser.add_argument("--pages", type=int, default=1000)
    parser.add_argument("--pairs", type=int, default=4)
    parser.add_argument("--seed", default="1")
    parser.add_argument("--jobs", type=int, default=os.cpu_count())
    parser.add_argument("--keep")
    given = parser.parse_args()
    command = shlex.split(given.soyc)
    total, differ = {}, 0
    jobs = [*example_jobs(25 * given.pairs, given.seed), *page_jobs(given.pages, given.pairs, given.seed)]
    with concurrent.futures.ProcessPoolExecutor(given.jobs) as pool:
        for counts, wrong in pool.map(tried, [command] * len(jobs), jobs, [given.keep] * len(jobs), chunksize=4):
            total = {name: total.get(name, 0) + number for name, number in counts.items()}
            differ += len(wrong)
            for name, why in wrong[:3]:
                print(f"{name}: {why[:300]}")
    print(
        f"{len(jobs)} pages, {total['refused']} of them refused; {total['pairs']} pairs, {total['too deep']} of them"
        f" too deep; {total['tokens']} tokens, {total['lines']} lines, {total['deep']} of them nest more than {DEEP},"
        f" {total['values']} values in the others; {differ} differences"
    )
    return 1 if differ else 0


if __name__ == "__main__":
    sys.exit(main())
