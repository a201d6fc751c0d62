#!/usr/bin/env python3
"""Writes module.js beside it: dist/soyc.wasm in base64, and the examples that the page begins with, whose files lie in
the folders beside this one. With --check it says by its status whether module.js is that."""
import base64
import json
import os
import sys

HERE = os.path.dirname(os.path.abspath(__file__))
EXAMPLES = [
    ("hello", "hello.page", ["page.soy"], "data.json", None, None),
    ("shop", "shop.list.main", ["layout.soy", "list.soy", "product.soy"], "data.json", "data.he.json", "he.json"),
]


def text_of(folder, name):
    with open(f"{HERE}/../{folder}/{name}", encoding="utf-8") as file:
        return file.read()


def example(name, template, sources, data, bundle_data, bundle):
    return {
        "name": name,
        "template": template,
        "sources": [{"name": it, "text": text_of(name, it)} for it in sources],
        "data": text_of(name, data),
        "bundleData": text_of(name, bundle_data) if bundle_data else "",
        "bundle": text_of(name, bundle) if bundle else "",
    }


def module():
    with open(f"{HERE}/../../dist/soyc.wasm", "rb") as file:
        digits = base64.b64encode(file.read()).decode()
    lines = "\n".join(digits[at : at + 120] for at in range(0, len(digits), 120))
    examples = json.dumps([example(*it) for it in EXAMPLES], indent=1, ensure_ascii=False)
    return f"// Made by module.py.\nwindow.EXAMPLES = {examples};\nwindow.MODULE = `\n{lines}\n`;\n"


def main():
    target = f"{HERE}/module.js"
    if "--check" not in sys.argv:
        with open(target, "w", encoding="utf-8") as file:
            file.write(module())
        return 0
    try:
        with open(target, encoding="utf-8") as file:
            return int(file.read() != module())
    except OSError:
        return 1


if __name__ == "__main__":
    sys.exit(main())
