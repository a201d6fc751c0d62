#!/usr/bin/env python3
"""Runs the program on kinds of hostile input, deep, wide, long and repeated, each at three sizes of which the last is
at a limit, and prints for each kind the statuses, the seconds, the peak of memory at the largest size in MB, and the
exponent of growth: by how much the time of the largest size is above that of half of it, as a power of two. It asserts
nothing. A time is the processor's, of a whole run, less that of a run of an empty page; of runs that take less than a
second, the least of three.

bench/hostile.py [--soyc CMD] [--stack KB] [--memory MB] [--seconds S] [--scale N] [--only WORD]

--stack and --memory limit the stack and the address space of each run (ulimit -s and -v), --seconds is how much of the
processor a run may use (60 by default), --scale N takes an Nth of each size, --only the kinds with a word in their
names. CMD is ./soyc by default, which is built where it has to be."""
import argparse
import math
import os
import resource
import shlex
import signal
import subprocess
import sys
import tempfile

TOP = os.path.join(os.path.dirname(os.path.abspath(__file__)), "..")
KINDS = []


def kind(name, size):
    """Adds a kind: a function from a number to words and files."""
    def add(make):
        KINDS.append((name, size, make))
        return make
    return add


def template(body, params="", name="m", attributes=""):
    return "{template %s%s}%s%s{/template}\n" % (name, attributes, params, body)


def render(body, params="", data="{}", bundle=None, more="", attributes=""):
    """A run of `render` of one template of this body."""
    files = {"t.soy": "{namespace t}\n" + template(body, params, attributes=attributes) + more, "d.json": data}
    if bundle is not None:
        files["b.json"] = bundle
    return ["render", "t.m", "d.json", "b.json" if bundle is not None else "-", "t.soy"], files


def each(count, text, start=1):
    """A text for each number; `#` is the number, and `~` the one before it."""
    return "".join(text.replace("#", str(n)).replace("~", str(n - 1)) for n in range(start, start + count))


X = "{@param x: string}"
VALUE = '{"x":"v"}'
FIRST = X + "{let $a0: $x /}"
CALLS = "{@param n: int}" + FIRST
AGAIN = "{if $n > 0}{call m}{param n: $n - 1 /}{param x: $a# /}{/call}{/if}{$a#}"
TEXT = ' kind="text"'


# ---- variables

@kind("lets that name the first", 40000)
def _(n):
    return render(each(n, "{let $a#: $a0 /}") + "{$a%d}" % n, FIRST, VALUE)


@kind("lets that name the first, through 99 calls", 8000)
def _(n):
    return render(each(n, "{let $a#: $a0 /}") + AGAIN.replace("#", str(n)), CALLS, '{"n":99,"x":"v"}')


@kind("prints of the first of many lets", 30000)
def _(n):
    return render(each(n, "{let $a#: $a0 /}{$a0}"), FIRST, VALUE)


@kind("chain of lets", 40000)
def _(n):
    return render(each(n, "{let $a#: $a~ /}") + "{$a%d}" % n, FIRST, VALUE)


@kind("chain of lets, through 99 calls", 8000)
def _(n):
    return render(each(n, "{let $a#: $a~ /}") + AGAIN.replace("#", str(n)), CALLS, '{"n":99,"x":"v"}')


@kind("chain of lets of a choice", 30000)
def _(n):
    return render(each(n, "{let $a#: $a~ ?: $x /}") + "{$a%d}" % n, "{@param? x: string}{let $a0: $x /}", VALUE)


@kind("parameters", 16000)
def _(n):
    callee = template(each(n, "{$p#}"), each(n, "{@param p#: string}"), "k", TEXT)
    return render("{call k}" + each(n, "{param p#: $x /}") + "{/call}", X, VALUE, more=callee)


@kind("parameters of the template that is rendered", 24000)
def _(n):
    return render("v", each(n, "{@param? p#: string}"))


@kind("parameters by data=all, through 99 calls", 8000)
def _(n):
    params = each(n, "{@param? p#: string}")
    body = '{if $n > 0}{call m data="all"}{param n: $n - 1 /}{/call}{/if}'
    return render(body, "{@param n: int}" + params, '{"n":99}')


@kind("blocks that print the one before", 25000)
def _(n):
    return render('{let $a0 kind="html"}<b>v</b>{/let}' + each(n, '{let $a# kind="html"}{$a~}{/let}') + "{$a%d}" % n)


@kind("blocks of text that print the one before", 25000)
def _(n):
    return render('{let $a0 kind="text"}v{/let}' + each(n, '{let $a# kind="text"}{$a~}{/let}') + "{$a%d}" % n)


@kind("blocks in blocks, 60 deep, in a row", 300)
def _(n):
    def deep(row):
        names = ["b%d_%d" % (row, i) for i in range(60)]
        return "".join('{let $%s kind="html"}' % name for name in names) + "v" + "".join(
            "{/let}{$%s}" % name for name in reversed(names))
    return render("".join(deep(row) for row in range(n)))


@kind("long names of variables", 400)
def _(n):
    name = "a" * 500
    return render(each(n, "{let $%s#: $%s0 /}{$%s0}" % (name, name, name)), X + "{let $%s0: $x /}" % name, VALUE)


# ---- commands

@kind("ifs in a row", 60000)
def _(n):
    return render("{if $x}a{/if}" * n, X, VALUE)


@kind("elseifs", 40000)
def _(n):
    return render("{if not $x}a" + "{elseif not $x}a" * n + "{/if}", X, VALUE)


@kind("ifs 60 deep, in a row", 1000)
def _(n):
    return render(("{if $x}" * 60 + "a" + "{/if}" * 60) * n, X, VALUE)


@kind("cases of a switch", 50000)
def _(n):
    return render("{switch $x}" + each(n, "{case 'a#'}b") + "{default}c{/switch}", X, VALUE)


@kind("values of one case", 80000)
def _(n):
    return render("{switch $x}{case " + ",".join("'a%d'" % i for i in range(n)) + "}b{/switch}", X, VALUE)


@kind("loops in a row", 30000)
def _(n):
    return render("{for $i in $l}{$i}{/for}" * n, "{@param l: list<string>}", '{"l":["v"]}')


@kind("loops in loops", 60)
def _(n):
    return render("".join("{for $i%d in $l}" % i for i in range(n)) + "v" + "{/for}" * n, "{@param l: list<int>}",
                  '{"l":[1]}')


@kind("loops in loops around an if", 14)
def _(n):
    return render("".join("{for $i%d in $l}{if $i%d}<b>{else}<i>{/if}</b></i>" % (i, i) for i in range(n))
                  + "{/for}" * n, "{@param l: list<int>}", '{"l":[]}')


@kind("turns of a loop", 1000000)
def _(n):
    return render("{for $i, $k in $l}{if $k < 0}v{/if}{/for}", "{@param l: list<int>}", '{"l":[%s]}' % ",".join("1" * n))


@kind("calls in a row", 60000)
def _(n):
    return render("{call k /}" * n, more=template("v", name="k"))


@kind("templates that call the next", 12000)
def _(n):
    more = each(n, "{template k#}{@param? l: int}v{if $l}{call k~ /}{/if}{/template}\n")
    return render("{call k%d /}" % n, more=template("v", "{@param? l: int}", "k0") + more)


@kind("calls past 100 deep", 1000)
def _(n):
    return render("v" * n + "{call m /}")


@kind("calls of text in calls of text", 99)
def _(n):
    return render("{if $n > 0}{call m}{param n: $n - 1 /}{/call}{call m}{param n: 0 /}{/call}{else}v{/if}",
                  "{@param n: int}", '{"n":%d}' % n, attributes=TEXT)


# ---- nests of loops, and arms, that lead to many states

LOOPS = "{@param l: list<int>}{@param x: bool}"
NOTHING = '{"l":[],"x":true}'
OTHERS = ["textarea", "xmp", "iframe", "noembed", "noframes", "noscript", "!"]


def begun(element):
    return "<!--" if element == "!" else "<%s>" % element


def ended(element):
    return "-->" if element == "!" else "</%s>" % element


def all_ended(elements):
    return "".join(ended(element) for element in elements)


def some(texts):
    """One of these texts."""
    return "{if $x}" + "{elseif $x}".join(texts[:-1]) + "{else}" + texts[-1] + "{/if}"


def moves(elements):
    """From each element's text to that of the next or not, the last first, so that each turn leads to one more."""
    pairs = list(zip(elements, elements[1:]))
    return "".join("{if $x}%s%s{/if}" % (ended(one), begun(other)) for one, other in reversed(pairs))


def nested(count, lead, after, inner=""):
    """Loops in one another, whose bodies begin and end with these texts; `#` is a loop's number."""
    return each(count, "{for $i# in $l}" + lead) + inner + (after + "{/for}") * count


@kind("loops in one another around strings of a script", 60)
def _(n):
    loops = nested(n, "{if $x}'{/if}a", "{if $x}\"{/if}", "{if $x}\"{/if}")
    return render("<script>" + loops + "</script>", LOOPS, NOTHING)


@kind("loops in one another around strings of a style", 60)
def _(n):
    loops = nested(n, "{if $x}\"{else}'{/if}", "{if $x}'{/if}a\\")
    return render("<style>" + loops + "</style>", LOOPS, NOTHING)


@kind("loops in one another around a tag that stays open", 60)
def _(n):
    return render("{nil}" + nested(n, "<b {sp}", "{if $x}>{/if}") + ">", LOOPS, NOTHING)


@kind("loops in one another around parts of a comment", 60)
def _(n):
    return render("{nil}" + nested(n, "{if $x}<!{/if}-", "{if $x}-{else}!{/if}>") + "-->", LOOPS, NOTHING)


@kind("loops in one another around letters of a tag's name", 60)
def _(n):
    return render("<b" + nested(n, "", "{if $x}c{/if}") + ">", LOOPS, NOTHING)


@kind("loops in one another around other elements", 60)
def _(n):
    elements = ["title", *OTHERS, "style"]
    return render(begun("title") + nested(n, "", moves(elements)) + all_ended(elements), LOOPS, NOTHING)


@kind("a loop over nine elements around a long text", 500000)
def _(n):
    elements = ["title", *OTHERS, "style"]
    return render(begun("title") + "{for $i in $l}" + "a" * n + moves(elements) + "{/for}" + all_ended(elements),
                  LOOPS, NOTHING)


@kind("three loops in one another over nine elements around a long text", 100000)
def _(n):
    groups = [["title", "textarea", "xmp"], ["iframe", "noembed", "noframes"], ["noscript", "style", "!"]]
    lead, after = "", ""
    for number, group in enumerate(groups):
        back = "".join(ended(element) + begun(group[0]) for element in group[1:])
        lead += back + "{for $i%d in $l}" % number
        after = moves(group) + "{/for}" + after
    return render(some([begun(group[0]) for group in groups]) + lead + "a" * n + after + all_ended(sum(groups, [])),
                  LOOPS, NOTHING)


def reordered(n):
    """Loops in one another, each of which changes the order of the states that it carries."""
    gathered = "".join(ended(element) + begun("title") for element in OTHERS)
    lead = "".join("{for $i%d in $l}{if $x}%s</style>%s{else}</style><title>{/if}" % (number, gathered, begun(other))
                   for number, other in zip(range(n), OTHERS * n))
    after = "{if $x}</title><style>{/if}{/for}" * n
    return (some([begun(element) for element in ["title", *OTHERS, "title"]]) + lead + after
            + all_ended(["title", "style", *OTHERS]))


@kind("loops in one another that each change the order of states", 60)
def _(n):
    return render(reordered(n), LOOPS, NOTHING)


@kind("loops in one another that each change the order of states, before a fault", 60)
def _(n):
    return render(reordered(n) + "<b {$x}", LOOPS, NOTHING)


@kind("arms that each lead to another tag's name", 48000)
def _(n):
    return render("<b{if $x}c" + each(n, "{elseif $x}a#") + "{/if}>", X, VALUE)


# ---- expressions, types and names

@kind("sums of 60 terms", 3000)
def _(n):
    return render(("{" + " + ".join(["1"] * 60) + "}") * n)


@kind("parentheses 60 deep", 4000)
def _(n):
    return render(("{" + "(" * 60 + "1" + ")" * 60 + "}") * n)


@kind("parentheses past the limit", 500000)
def _(n):
    return render("{" + "(" * n + "1" + ")" * n + "}")


@kind("accesses 50 deep", 3000)
def _(n):
    kind_of = "[a: " * 50 + "int" + "]" * 50
    return render(("{$r" + ".a" * 50 + "}") * n, "{@param r: %s}" % kind_of, '{"r":' + '{"a":' * 50 + "1" + "}" * 51)


@kind("fields of a record", 30000)
def _(n):
    fields = ", ".join("f%d: int" % i for i in range(n))
    return render("{$r.f%d}" % (n - 1), "{@param r: [%s]}" % fields,
                  '{"r":{%s}}' % ",".join('"f%d":1' % i for i in range(n)))


@kind("accesses to the last field of a record", 8000)
def _(n):
    fields = ", ".join("f%d: int" % i for i in range(n))
    return render("{$r.f%d}" % (n - 1) * n, "{@param r: [%s]}" % fields,
                  '{"r":{%s}}' % ",".join('"f%d":1' % i for i in range(n)))


@kind("members of a union", 100000)
def _(n):
    return render("{$x}", "{@param x: %s}" % "|".join(["int", "string"] * (n // 2)), VALUE)


def record(count):
    return "[" + ", ".join("f%d: int" % i for i in range(count)) + "]|null"


def union(count):
    return each(count, "[f#: int]|") + "null"


def passed(kind_of):
    """A call that passes what has a type to a parameter of this type."""
    return render("{call k}{param r: $r /}{/call}", "{@param? r: %s}" % kind_of,
                  more=template("v", "{@param r: %s}" % kind_of, "k"))


@kind("a record that is passed", 20000)
def _(n):
    return passed(record(n))


@kind("a union of records that is passed", 10000)
def _(n):
    return passed(union(n))


@kind("a choice between unions of records", 8000)
def _(n):
    return render("{let $a: $x ?: $y /}", "{@param? x: %s}{@param? y: %s}" % (union(n), union(n)))


@kind("types 60 deep", 2000)
def _(n):
    return render("v", each(n, "{@param? p#: " + "list<" * 60 + "int" + ">" * 60 + "}"))


@kind("long strings of escapes", 160000)
def _(n):
    return render("{'" + "\\u0041" * n + "'}")


# ---- texts

@kind("a long text", 1000000)
def _(n):
    return render("a" * n)


@kind("tags in a row", 140000)
def _(n):
    return render("<b></b>" * n)


@kind("tags that stay open", 300000)
def _(n):
    return render("<b>" * n)


@kind("attributes of a tag", 100000)
def _(n):
    return render("<b" + each(n, " a#=''") + ">")


@kind("references", 200000)
def _(n):
    return render("<b title='" + "&amp;" * n + "'>")


@kind("prints in texts", 40000)
def _(n):
    return render("<p>{$x}</p>" * n, X, VALUE)


@kind("comments", 60000)
def _(n):
    return render("/* a */" * n + " // b\n" * n)


@kind("lines to join", 400000)
def _(n):
    return render("a\n" * n)


@kind("character commands", 200000)
def _(n):
    return render("{sp}" * n)


@kind("literals", 40000)
def _(n):
    return render("{literal}{a}{/literal}" * n)


@kind("a long script", 400000)
def _(n):
    return render("<script>" + "a;" * n + "</script>")


@kind("prints in a script", 60000)
def _(n):
    return render("<script>" + "a({$x});" * n + "</script>", X, VALUE)


@kind("a long style", 90000)
def _(n):
    return render("<style>" + "a{lb}b:c{rb}" * (n // 2) + "</style>")


@kind("templates that aren't ended", 200000)
def _(n):
    return ["check", "-", "t.soy"], {"t.soy": "{namespace t}\n" + "{template m}\n" * (n // 4)}


@kind("a fault in the last line", 1000000)
def _(n):
    text = "{namespace t}\n{template m}\n" + "a\n" * (n // 2) + "{$x}\n{/template}\n"
    return ["check", "-", "t.soy"], {"t.soy": text}


@kind("64 files", 16000)
def _(n):
    files = {"t%d.soy" % i: "{namespace t%d}\n" % i + template("v" * n) for i in range(64)}
    return ["check", "-", *files], files


@kind("files of 60000 ifs", 8)
def _(n):
    files = {"t%d.soy" % i: "{namespace t%d}\n" % i + template("{if 1}a{/if}" * 60000) for i in range(n)}
    return ["check", "-", *files], files


# ---- messages, patterns and rules

@kind("messages", 20000)
def _(n):
    return ["extract", "t.soy"], {"t.soy": "{namespace t}\n" + template(each(n, '{msg desc="d"}m#{/msg}'))}


@kind("placeholders of one name", 30000)
def _(n):
    text = '{msg desc="d"}' + each(n, "{$x + '#'}") + "{/msg}"
    return ["extract", "t.soy"], {"t.soy": "{namespace t}\n" + template(text, X)}


@kind("tags of a message", 60000)
def _(n):
    text = '{msg desc="d"}' + each(n, "<b id=a#>") + "{/msg}"
    return ["extract", "t.soy"], {"t.soy": "{namespace t}\n" + template(text)}


@kind("cases of a plural", 40000)
def _(n):
    text = '{msg desc="d"}{plural $n}' + each(n, "{case #}a") + "{default}b{/plural}{/msg}"
    return render(text, "{@param n: int}", '{"n":-1}')


@kind("cases of a select", 40000)
def _(n):
    text = '{msg desc="d"}{select $x}' + each(n, "{case 'a#'}a") + "{default}b{/select}{/msg}"
    return render(text, X, VALUE)


@kind("a case of many values around a long text", 3000)
def _(n):
    text = '{msg desc="d"}{plural $n}{case %s}%s{default}b{/plural}{/msg}' % (
        ",".join(str(i) for i in range(n)), "a" * n)
    return render(text, "{@param n: int}", '{"n":-1}')


@kind("cases of two values in one another", 16)
def _(n):
    text = '{msg desc="d"}' + "{plural $n}{case 1, 2}" * n + "a" + "{default}b{/plural}" * n + "{/msg}"
    return render(text, "{@param n: int}", '{"n":1}')


HI = '{msg desc="d"}Hi {$x}{/msg}'
HI_ID = "972aee3f23521398"


def bundle(text, more=""):
    return '{"dir":"ltr"%s,"messages":{"%s":"%s"}}' % (more, HI_ID, text)


@kind("a message translated in a row", 30000)
def _(n):
    return render(HI * n, X, VALUE, bundle("{X}!"))


# Ids of the messages of so many placeholders; at another number none is translated.
PLACEHOLDERS = {2500: "b97f43e634adf275", 5000: "232fc5e511b5f790", 10000: "f0df2afcf8062545"}


@kind("placeholders that are each translated", 10000)
def _(n):
    text = '{msg desc="d"}' + each(n, "{$x_#a}") + "{/msg}"
    files = '{"dir":"ltr","messages":{"%s":"%s"}}' % (PLACEHOLDERS.get(n, "0" * 16), each(n, "{X_#A}"))
    return render(text, each(n, "{@param? x_#a: string}"), bundle=files)


@kind("arguments of a pattern", 1000000)
def _(n):
    return render(HI, X, VALUE, bundle("{X}" * n))


@kind("plurals of a pattern 60 deep", 2000)
def _(n):
    text = '{msg desc="d"}{plural $n}{case 1}a{default}b{/plural}{/msg}'
    pattern = "{N,plural,other{" * 60 + "#" + "}}" * 60
    return render(text, "{@param n: int}", '{"n":1}',
                  '{"dir":"ltr","messages":{"%s":"%s"}}' % (plural_id(), pattern * n))


@kind("a pattern past the limit", 300000)
def _(n):
    return render(HI, X, VALUE, bundle("{X,select,other{" * (n // 4)))


@kind("quotes of a pattern", 500000)
def _(n):
    return render(HI, X, VALUE, bundle("'{'" * n))


@kind("ids that no message has", 100000)
def _(n):
    ids = ",".join('"%016x":"a"' % i for i in range(n))
    return render(HI, X, VALUE, '{"dir":"ltr","messages":{%s}}' % ids)


@kind("a long plural rule", 200000)
def _(n):
    return render(HI, X, VALUE, bundle("{X}", ',"plural":{"one":"n = 1%s"}' % (" or n = 1" * n)))


@kind("values of a plural rule", 800000)
def _(n):
    return render(HI, X, VALUE, bundle("{X}", ',"plural":{"one":"n = 1%s"}' % (",1" * n)))


def plural_id():
    return "6b79bacfb46050fb"


# ---- data

@kind("a list of strings", 600000)
def _(n):
    return render("{for $i in $l}{$i}{/for}", "{@param l: list<string>}", '{"l":[%s]}' % ",".join(['"v"'] * n))


@kind("a list that nothing reads", 1500000)
def _(n):
    return render("v", "{@param l: list<int>}", '{"l":[%s]}' % ",".join(["1"] * n))


@kind("entries of a map", 200000)
def _(n):
    return render("{$m['k1']}" * 2000, "{@param m: map<string, int>}",
                  '{"m":{%s}}' % ",".join('"k%d":1' % i for i in range(n)))


@kind("fields that no type has", 200000)
def _(n):
    return render("{$x}", X, '{%s,"x":"v"}' % ",".join('"k%d":1' % i for i in range(n)))


@kind("one field many times", 300000)
def _(n):
    return render("{$x}", X, '{%s}' % ",".join(['"x":"v"'] * n))


@kind("a list of a union of records", 3000)
def _(n):
    return render("v", "{@param l: list<%s>}" % union(n), '{"l":[%s]}' % ",".join(['{"f%d":1}' % n] * n))


@kind("data nested past the limit", 1000000)
def _(n):
    return render("v", "{@param? l: list<int>}", '{"l":' + "[" * n + "]" * n + "}")


@kind("data 60 deep, in a row", 20000)
def _(n):
    return render("v", "{@param l: %s}" % ("list<" * 60 + "int" + ">" * 60),
                  '{"l":[%s]}' % ",".join(["[" * 59 + "]" * 59] * n))


def printed(text):
    return render("<p title=\"{$x}\">{$x}</p>", X, '{"x":"%s"}' % text)


@kind("a string to escape", 4000000)
def _(n):
    return printed("<" * n)


@kind("a string of escapes of JSON", 650000)
def _(n):
    return printed("\\u003c" * n)


@kind("a string of brackets", 2000000)
def _(n):
    return printed("(" * (n // 2) + ")" * (n // 2))


@kind("a string of isolates", 1300000)
def _(n):
    return printed("\u2067" * (n // 2) + "\u2069" * (n // 2))


@kind("a string of letters of two directions", 1000000)
def _(n):
    return printed("\u05d0 a(" * (n // 4))


@kind("a string in a URI", 3000000)
def _(n):
    return render('<a href="/a?b={$x}">c</a>', X, '{"x":"%s"}' % ("%&/" * (n // 3)))


@kind("a string in a script", 3000000)
def _(n):
    return render("<script>a = {$x};</script>", X, '{"x":"%s"}' % ("</a" * (n // 3)))


# ---- pages in visual order, scripts of the desk, formatting

def preview(page):
    words, files = render(page)
    return ["preview", *words[1:]], files


@kind("preview of brackets", 1000000)
def _(n):
    return preview("(" * (n // 2) + ")" * (n // 2))


@kind("preview of isolates", 290000)
def _(n):
    return preview("\u2067a" * (n // 2) + "\u2069" * (n // 2))


@kind("preview of directions in turn", 300000)
def _(n):
    return preview("\u05d0a" * (n // 2))


@kind("preview of many lines", 250000)
def _(n):
    return preview("a<p>" * n)


@kind("preview of tags that stay open", 250000)
def _(n):
    return preview("<b>" * n)


@kind("preview of paragraphs with a direction", 8000)
def _(n):
    return preview("<p dir=auto>" * n)


@kind("preview of cells that stay open", 3000)
def _(n):
    return preview("<table><tr><td>a" * n)


@kind("preview of end tags that end nothing", 16000)
def _(n):
    return preview("<b>" * n + "</i>" * n)


@kind("a script of openings", 100000)
def _(n):
    words, files = render("v", X)
    files["s"] = 'open t.m {"x":"v"}\nclose 0\n' + each(n, 'open t.m {"x":"v"}\nclose #\n')
    return ["play", "s", "-", "-", "t.soy"], files


@kind("a script of openings of a template of many parameters", 1500)
def _(n):
    words, files = render("v", each(n, "{@param? p#: string}"))
    files["s"] = "".join("open t.m {}\nclose %d\n" % i for i in range(n))
    return ["play", "s", "-", "-", "t.soy"], files


@kind("a script of openings among many templates", 12000)
def _(n):
    files = {"t.soy": "{namespace t}\n" + each(n, "{template k#}v{/template}\n"),
             "s": "".join("open t.k%d {}\nclose %d\n" % (n, i) for i in range(n))}
    return ["play", "s", "-", "-", "t.soy"], files


@kind("a script of pulls", 200000)
def _(n):
    words, files = render("{for $i in $l}{$i}{/for}", "{@param l: list<string>}")
    files["s"] = 'open t.m {"l":[%s]}\n' % ",".join(['"v"'] * n) + "pull 0 1\n" * n
    return ["play", "s", "-", "-", "t.soy"], files


@kind("a script of publishings", 200000)
def _(n):
    words, files = render("v")
    files["s"] = "publish 2\npublish 1\n" * n
    return ["play", "s", "-", "-", "t.soy"], files


@kind("format of a long file", 60000)
def _(n):
    return ["format", "t.soy"], {"t.soy": "{namespace t}\n" + template("{if 1}a{/if}\n" * n)}


@kind("format of sums", 3000)
def _(n):
    return ["format", "t.soy"], {"t.soy": "{namespace t}\n" + template(("{" + " + ".join(["1"] * 60) + "}") * n)}


# ---- runs

def run(command, words, folder, limits):
    """The status of a run, its seconds and its peak of memory in MB."""
    def limit():
        resource.setrlimit(resource.RLIMIT_CPU, (limits.seconds, limits.seconds + 1))
        if limits.stack:
            resource.setrlimit(resource.RLIMIT_STACK, (limits.stack * 1024, limits.stack * 1024))
        if limits.memory:
            resource.setrlimit(resource.RLIMIT_AS, (limits.memory << 20, limits.memory << 20))
    with open(os.devnull, "wb") as nowhere:
        process = subprocess.Popen(command + words, cwd=folder, stdin=nowhere, stdout=nowhere, stderr=nowhere,
                                   preexec_fn=limit)
        _, status, used = os.wait4(process.pid, 0)
    took = used.ru_utime + used.ru_stime
    if not os.WIFSIGNALED(status):
        name = str(os.WEXITSTATUS(status))
    elif os.WTERMSIG(status) == signal.SIGXCPU:
        name = "late"
    else:
        name = signal.Signals(os.WTERMSIG(status)).name
    return name, took, used.ru_maxrss / 1024


def measured(command, made, limits):
    """The same of a kind at a size."""
    words, files = made
    with tempfile.TemporaryDirectory() as folder:
        for name, text in files.items():
            with open(os.path.join(folder, name), "wb") as file:
                file.write(text.encode())
        first = run(command, words, folder, limits)
        again = [run(command, words, folder, limits) for _ in range(2 if first[1] < 1 else 0)]
        return min([first, *again], key=lambda found: found[1])


def program(command):
    if command:
        return shlex.split(command)
    subprocess.run([os.path.join(TOP, "soyc")], stdout=subprocess.DEVNULL, stderr=subprocess.DEVNULL, check=False)
    return [os.path.join(TOP, "crates/soyc/out/soyc")]


def exponent(half, whole):
    if half < 0.004 or whole < 0.01:
        return "-"
    return "%.1f" % math.log2(whole / half)


def main():
    reader = argparse.ArgumentParser(description=__doc__, formatter_class=argparse.RawDescriptionHelpFormatter)
    reader.add_argument("--soyc")
    reader.add_argument("--stack", type=int)
    reader.add_argument("--memory", type=int)
    reader.add_argument("--seconds", type=int, default=60)
    reader.add_argument("--scale", type=int, default=1)
    reader.add_argument("--only", default="")
    limits = reader.parse_args()
    command = program(limits.soyc)
    empty = min(measured(command, render(""), limits)[1] for _ in range(5))
    print("| Kind | Size | Status | Seconds | MB | Exponent |\n|---|---|---|---|---|---|")
    for name, size, make in KINDS:
        if limits.only not in name:
            continue
        size = max(size // limits.scale, 4)
        runs = [measured(command, make(max(n, 1)), limits) for n in (size // 4, size // 2, size)]
        statuses = ", ".join(dict.fromkeys(status for status, _, _ in runs))
        seconds = [max(took - empty, 0) for _, took, _ in runs]
        print("| %s | %d | %s | %s | %.0f | %s |" % (
            name, size, statuses, ", ".join("%.2f" % took for took in seconds), runs[2][2],
            exponent(seconds[1], seconds[2])), flush=True)


if __name__ == "__main__":
    sys.exit(main())
