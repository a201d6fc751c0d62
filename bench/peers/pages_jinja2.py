#!/usr/bin/python3
"""pages_jinja2.py PAGE DATA COUNT TEMPLATE [once]: makes so many pages by Jinja2, which compiles its template once,
from the same JSON, which is read anew for each page or, with `once`, before; prints the microseconds that these took,
and those on a processor. For COUNT 0 it writes the page instead."""
import json
import resource
import sys
import time

import jinja2


def first_strong(word):
    for letter in word:
        if "\u0590" <= letter <= "\u08ff" and letter.isalpha():
            return "R"
        if letter.isalpha():
            return "L"
    return None


def direction(text):
    """The direction of a text by its words, by the rules of docs/bidi.md, for the workload's letters."""
    right, total, weak = 0, 0, False
    for word in text.split():
        strong = first_strong(word)
        if strong == "R":
            right, total = right + 1, total + 1
        elif word.startswith(("http://", "https://")):
            weak = True
        elif strong == "L":
            total += 1
        elif any("0" <= letter <= "9" for letter in word):
            weak = True
    return "ltr" if 5 * right <= 2 * total and (total > 0 or weak) else "rtl"


def compiled(source):
    environment = jinja2.Environment(autoescape=True)
    environment.filters["direction"] = direction
    return environment.from_string(source)


def busy():
    used = resource.getrusage(resource.RUSAGE_SELF)
    return (used.ru_utime + used.ru_stime) * 1e6


def main():
    _, data, count, source, *once = sys.argv[1:]
    with open(data, "rb") as file:
        content = file.read()
    with open(source, encoding="utf-8") as file:
        page = compiled(file.read())
    before = json.loads(content)

    def make():
        return page.render(before if once else json.loads(content)).encode()

    first = make()
    if int(count) == 0:
        sys.stdout.buffer.write(first)
        return
    start, busy_start = time.perf_counter(), busy()
    for _ in range(int(count)):
        make()
    print((time.perf_counter() - start) * 1e6, busy() - busy_start)


if __name__ == "__main__":
    main()
