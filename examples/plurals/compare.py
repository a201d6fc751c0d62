#!/usr/bin/python3
"""Compares the program with Babel: the category of the numbers 0 to 200 and of some greater ones, by CLDR's plural and
ordinal rules of each locale that both have. Prints each locale that differs and, last, how many were compared.

    compare.py [PROGRAM..]      PROGRAM is ../../soyc where it isn't given

Needs Debian's unicode-cldr-core and python3-babel, which have the same version of CLDR or else differ.
"""
import json
import os
import subprocess
import sys
import tempfile

import babel
from rules import read_rules

HERE = os.path.dirname(os.path.abspath(__file__))
NUMBERS = [*range(201), 1000, 1001, 10**6, 2 * 10**6 + 1, 10**9]
LETTERS = {"zero": "z", "one": "o", "two": "t", "few": "f", "many": "m", "other": "x"}


def run(program, *words):
    return subprocess.run([*program, *words], capture_output=True, check=True, text=True).stdout


def bundle(locale, plural, ordinal, ids):
    arms = " ".join(f"{keyword} {{{letter}}}" for keyword, letter in LETTERS.items())
    texts = [f"{{N, {kind}, {arms}}}" for kind in ("plural", "selectordinal")]
    return {"dir": "ltr", "locale": locale, "plural": plural, "ordinal": ordinal, "messages": dict(zip(ids, texts))}


def main(program):
    plurals, ordinals = read_rules("plurals"), read_rules("ordinals")
    source = f"{HERE}/numbers.soy"
    ids = [message["id"] for message in json.loads(run(program, "extract", source))["messages"]]
    compared = differ = 0
    with tempfile.TemporaryDirectory() as work:
        with open(f"{work}/numbers.json", "w") as file:
            json.dump({"numbers": NUMBERS}, file)
        for name in sorted(plurals):
            try:
                locale = babel.Locale.parse(name)
            except (babel.UnknownLocaleError, ValueError):
                continue
            forms = [locale.plural_form]
            if name in ordinals:
                forms.append(locale.ordinal_form)
            with open(f"{work}/bundle.json", "w") as file:
                json.dump(bundle(name, plurals[name], ordinals.get(name, {}), ids), file)
            words = ("render", "plurals.numbers", f"{work}/numbers.json", f"{work}/bundle.json", source)
            pages = run(program, *words).split(" ")
            compared += len(forms)
            for kind, form, page in zip(("plural", "ordinal"), forms, pages):
                wanted = "".join(LETTERS[form(number)] for number in NUMBERS)
                if page != wanted:
                    differ += 1
                    print(f"{name}, {kind}: {page}\n  Babel: {wanted}")
    print(f"{compared} rules of {len(NUMBERS)} numbers each compared, {differ} differ")
    return differ != 0


if __name__ == "__main__":
    sys.exit(main(sys.argv[1:] or [f"{HERE}/../../soyc"]))
