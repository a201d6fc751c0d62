#!/usr/bin/python3
"""Prints CLDR's plural rules of a locale as the members `locale`, `plural` and `ordinal` of a bundle.

    rules.py LOCALE [FOLDER]    FOLDER has plurals.xml and ordinals.xml; Debian's unicode-cldr-core has them
"""
import json
import sys
import xml.etree.ElementTree as ElementTree

FOLDER = "/usr/share/unicode/cldr/common/supplemental"


def read_rules(file, folder=FOLDER):
    """The rules of each locale, by keyword, each with its samples."""
    rules = {}
    for group in ElementTree.parse(f"{folder}/{file}.xml").iter("pluralRules"):
        texts = {rule.get("count"): rule.text.strip() for rule in group}
        rules.update((locale, texts) for locale in group.get("locales").split())
    return rules


if __name__ == "__main__":
    if len(sys.argv) not in (2, 3):
        sys.exit(__doc__)
    try:
        plural, ordinal = (read_rules(file, *sys.argv[2:]).get(sys.argv[1]) for file in ("plurals", "ordinals"))
    except FileNotFoundError as fault:
        sys.exit(f"there is no file {fault.filename}, which Debian's unicode-cldr-core has")
    if plural is None:
        sys.exit(f"CLDR has no plural rules of {sys.argv[1]}")
    members = {"locale": sys.argv[1], "plural": plural, "ordinal": ordinal or {}}
    print(json.dumps(members, ensure_ascii=False, indent=2))
