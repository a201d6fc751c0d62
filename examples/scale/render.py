#!/usr/bin/env python3
"""render.py SHARD.tsv: does what the job `render` does, by the library, which compiles the templates once for a shard.
Beside it are libsoyc.so, soyc.py, the templates and the bundles."""

import io
import os
import pathlib
import sys
import tarfile

HERE = pathlib.Path(__file__).resolve().parent
os.environ.setdefault("SOYC_LIBRARY", str(HERE / "libsoyc.so"))

from soyc import Refused, Templates


def compiled(bundle):
    sources = {it.name: it.read_bytes() for it in sorted(HERE.glob("*.soy"))}
    return Templates(sources, None if bundle == "-" else (HERE / bundle).read_bytes())


def put(archive, name, content):
    entry = tarfile.TarInfo(name)
    entry.size = len(content)
    archive.addfile(entry, io.BytesIO(content))


def main():
    shard = pathlib.Path(sys.argv[1])
    languages, refused = {}, ""
    with tarfile.open(shard.with_suffix(".tar"), "w") as archive, open(shard, encoding="utf-8", newline="\n") as lines:
        for line in lines:
            name, template, bundle, data = line.rstrip("\n").split("\t")
            if bundle not in languages:
                languages[bundle] = compiled(bundle)
            try:
                with languages[bundle].render(template, data) as page:
                    put(archive, name, page.read())
            except Refused as fault:
                refused += f"{name}\t{fault}\n"
        if refused:
            put(archive, f"{shard.stem}.refused", refused.encode())


if __name__ == "__main__":
    main()
