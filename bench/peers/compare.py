#!/usr/bin/env python3
"""Compares `soyc render` with what a user would pick instead, on the page of `gen NUMBER` with 0 to 40,000 items: a
program by hand in Rust, Go's html/template and quicktemplate, and ctemplate, each reading the same JSON. Prints, after
the bytes of the pages were compared, the least of the rounds, in each of which every program runs once.

bench/peers/compare.py [--soyc PROGRAM] [--number N] [--rounds N] [--instructions] [--folder FOLDER]

PROGRAM is what cc makes of dist/ if none is named. --instructions counts each run's instructions too, by valgrind.
Sources, data and programs are made in a folder that is removed at the end, or in FOLDER. A peer that can't be built is
left out. On Debian: apt install gcc g++ rustc cargo librust-serde-json-dev librust-serde-derive-dev golang-go
golang-github-valyala-quicktemplate-dev libctemplate-dev rapidjson-dev valgrind"""
import argparse
import concurrent.futures
import gzip
import hashlib
import os
import pathlib
import re
import shutil
import statistics
import subprocess
import sys
import tempfile

import workload

HERE = pathlib.Path(__file__).resolve().parent
TOP = HERE.parent.parent
COUNTS = [0, 400, 4000, 40000]
SOYC, HAND, QUICK = "soyc render", "by hand (Rust)", "quicktemplate (Go)"

# Which of soyc's bytes a peer writes otherwise by its own design, and how.
REFUSED = b'href="about:invalid#zSoyz"'
DESIGN = {
    "html/template (Go)": {REFUSED: b'href="#ZgotmplZ"'},
    QUICK: {REFUSED: b'href="javascript:1"'},
    "ctemplate (C++)": {REFUSED: b'href="#"', b'href="mailto:a@e.example"': b'href="#"'},
}


# ---- files and programs

def shell(folder, *words, **more):
    """Runs a command with little priority, for builds."""
    env = {**os.environ, **more}
    done = subprocess.run(["nice", "-n", "10", *map(str, words)], cwd=folder, env=env, capture_output=True)
    if done.returncode != 0:
        raise RuntimeError(f"{words[0]}: " + (done.stdout + done.stderr).decode(errors="replace").strip()[-600:])
    return done.stdout


def build_soyc(folder):
    (folder / "soyc.s").write_bytes(gzip.decompress((TOP / "dist/soyc.s.gz").read_bytes()))
    shell(folder, "cc", "-O2", "-static", "-DSOYC_PROGRAM", "-o", "soyc", "soyc.s", TOP / "dist/runtime.c")
    return folder / "soyc"


def build_hand(folder):
    shutil.copytree(HERE / "by_hand", folder / "by_hand", dirs_exist_ok=True)
    shell(folder / "by_hand", "/usr/bin/cargo", "build", "--release", "--offline",
          "--config", 'source.crates-io.replace-with="debian"',
          "--config", 'source.debian.directory="/usr/share/cargo/registry"',
          RUSTC="/usr/bin/rustc", CARGO_HOME=str(folder / "cargo"), RUSTFLAGS="")
    return [folder / "by_hand/target/release/by_hand"]


def go(folder, *words):
    cache = os.environ.get("GOCACHE") or str(folder / "go-cache")
    shell(folder, "go", *words, GOPATH="/usr/share/gocode", GO111MODULE="off", GOFLAGS="", GOCACHE=cache)


def build_html_template(folder):
    (folder / "page.html").write_text(workload.html_template())
    go(folder, "build", "-o", "html_template", HERE / "html_template.go", HERE / "items.go")
    return [folder / "html_template", folder / "page.html"]


def build_quicktemplate(folder):
    sources = folder / "quick"
    sources.mkdir(exist_ok=True)
    for name in ["quicktemplate.go", "items.go"]:
        shutil.copy(HERE / name, sources)
    (sources / "page.qtpl").write_text(workload.quicktemplate())
    go(folder, "build", "-o", "qtc", "github.com/valyala/quicktemplate/qtc")
    shell(sources, folder / "qtc", "-dir", ".")
    go(folder, "build", "-o", "quicktemplate", *sorted(sources.glob("*.go")))
    return [folder / "quicktemplate"]


def build_ctemplate(folder):
    (folder / "page.tpl").write_text(workload.ctemplate())
    shell(folder, "c++", "-O2", "-o", "ctemplate", HERE / "ctemplate.cc", "-lctemplate", "-lpthread")
    return [folder / "ctemplate", folder / "page.tpl"]


PEERS = {HAND: build_hand, "html/template (Go)": build_html_template, QUICK: build_quicktemplate,
         "ctemplate (C++)": build_ctemplate}


def write_files(folder, soyc, number):
    """The source, the data and the bundle as files, and what the parts of soyc's time are measured by."""
    for count in COUNTS:
        (folder / f"{count}.json").write_text(workload.data(number, count))
    files = {"gen.soy": workload.soy_source(), "bare.soy": workload.soy_source(with_items=False), "one.json": '{"n":1}',
             "empty.soy": "{namespace e}\n{template m}\n{/template}\n", "empty.json": "{}"}
    for name, text in files.items():
        (folder / name).write_text(text)
    (folder / "gen.bundle").write_text(workload.bundle(shell(folder, soyc, "extract", "gen.soy")))


def commands(folder, soyc, built):
    """The words of each run by its key, a program and a number of items; with `data` it reads them and shows none."""
    runs = {}
    for count in COUNTS:
        json = folder / f"{count}.json"
        runs[SOYC, count] = [soyc, "render", "gen.main", json, "gen.bundle", "gen.soy"]
        runs[SOYC, "data", count] = [soyc, "render", "gen.main", json, "gen.bundle", "bare.soy"]
        for name, program in built.items():
            runs[name, count] = [*program, json]
            runs[name, "data", count] = [*program, json, 0]
    runs["render, one message"] = [soyc, "render", "gen.t1", "one.json", "gen.bundle", "gen.soy"]
    runs["render, empty"] = [soyc, "render", "e.m", "empty.json", "-", "empty.soy"]
    runs["check"] = [soyc, "check", "gen.bundle", "gen.soy"]
    runs["check, empty"] = [soyc, "check", "-", "empty.soy"]
    runs["gen"] = [soyc, "gen"]
    return {key: [str(word) for word in words] for key, words in runs.items()}


# ---- comparing and measuring

def compare_pages(folder, runs, built):
    """Says of each peer whether it writes soyc's bytes, or which differ by its design."""
    pages = {count: shell(folder, *runs[SOYC, count]) for count in COUNTS}
    for name in built:
        verdict = []
        for count, page in pages.items():
            theirs = shell(folder, *runs[name, count])
            for ours, instead in DESIGN.get(name, {}).items() if theirs != page else ():
                page = page.replace(ours, instead)
                verdict.append(f"by design {instead.decode()} for {ours.decode()}")
            if theirs != page:
                at = len(os.path.commonprefix([theirs, page]))
                near = slice(max(0, at - 40), at + 40)
                verdict.append(f"OTHER BYTES, of {count} items at {at}: {theirs[near]!r}, not {page[near]!r}")
        print(f"  {name:20} the same bytes" + "".join(f"; {text}" for text in dict.fromkeys(verdict)))


class Figures:
    """The rounds' figures of each run: microseconds, on a processor, KB, to the first byte; and the instructions."""
    def __init__(self, folder, runs):
        self.folder, self.runs, self.rounds, self.counted = folder, runs, {key: [] for key in runs}, {}
        self.pages = [key for key in runs if isinstance(key, tuple) and len(key) == 2]

    def once(self, output, words):
        row = subprocess.check_output([self.folder / "once", output, *words], cwd=self.folder)
        return list(map(float, row.split()))

    def round(self):
        for key, words in self.runs.items():
            row = self.once("page", words)
            if key in self.pages:
                row[3] = self.once("-", words)[3]
            self.rounds[key].append(row)

    def count_instructions(self):
        """Several runs at once, since no other work changes a count. By cachegrind, which runs Go's programs too."""
        with concurrent.futures.ThreadPoolExecutor(os.cpu_count()) as pool:
            self.counted = dict(zip(self.runs, pool.map(self.instructions, self.runs.values())))

    def instructions(self, words):
        tool = ["valgrind", "--tool=cachegrind", "--cache-sim=no", "--cachegrind-out-file=/dev/null"]
        done = subprocess.run([*tool, *words], cwd=self.folder, stdout=subprocess.DEVNULL, stderr=subprocess.PIPE)
        found = re.search(rb"I +refs: +([0-9,]+)", done.stderr)
        return int(found[1].replace(b",", b"")) if found and done.returncode == 0 else None

    def least(self, key, part=0):
        return min(row[part] for row in self.rounds[key])

    def difference(self, more, less):
        """Of the least times; and of the instructions, if they were counted."""
        counts = self.counted.get(more), self.counted.get(less)
        return self.least(more) - self.least(less), counts[0] - counts[1] if None not in counts else None

    def ratio(self, key, base):
        """Of the least times, with the median of the ratios within each round, and the ratio on a processor."""
        within = statistics.median(a[0] / b[0] for a, b in zip(self.rounds[key], self.rounds[base]))
        busy = self.least(key, 1) / self.least(base, 1)
        least = self.least(key) / self.least(base)
        return f"{least:5.2f} ({within:.2f} in the middle round, {busy:.2f} on a processor)"


def per_item(figures, name, *kind):
    """Microseconds and instructions an item, from 4,000 to 40,000 items."""
    micros, counted = figures.difference((name, *kind, 40000), (name, *kind, 4000))
    return micros / 36000, counted / 36000 if counted is not None else None


def less(pair, other):
    return pair[0] - other[0], pair[1] - other[1] if None not in (pair[1], other[1]) else None


def shown(counted, unit, form="{:9.1f}"):
    return " " * 9 if counted is None else form.format(counted / unit)


def print_pages(figures, names):
    for count in COUNTS:
        print(f"\n{f'{count:,} items':22} whole ms   of by hand  processor ms  peak MB  first byte ms"
              "  million instructions")
        for name in names:
            whole, busy, peak, first = (figures.least((name, count), part) for part in range(4))
            times = f"{whole / figures.least((HAND, count)):.2f}" if HAND in names else ""
            print(f"  {name:20} {whole / 1000:8.2f} {times:>12} {busy / 1000:13.2f} {peak / 1024:8.1f} "
                  f"{first / 1000:14.2f} {shown(figures.counted.get((name, count)), 1e6, '{:21.1f}')}")


def print_items(figures, names):
    print("\nan item         microseconds: whole, read from JSON, shown       instructions: whole, read, shown")
    for name in names:
        whole, read = per_item(figures, name), per_item(figures, name, "data")
        parts = [whole, read, less(whole, read)]
        print(f"  {name:20}" + "".join(f"{micros:10.3f}" for micros, _ in parts) + " " * 8
              + "".join(shown(counted, 1) for _, counted in parts))


def print_compile(figures):
    print("\ncompile (soyc)               ms   instructions (millions)")
    rows = [("start: an empty page", (figures.least("render, empty"), figures.counted.get("render, empty"))),
            ("render of one message, less start", figures.difference("render, one message", "render, empty")),
            ("check of the files, less a check of an empty file", figures.difference("check", "check, empty"))]
    for name, (micros, counted) in rows:
        print(f"  {name:50} {micros / 1000:8.2f} {shown(counted, 1e6)}")


def print_goals(figures, names):
    print("\ngoals")
    whole = per_item(figures, SOYC)
    if HAND in names:
        hand = per_item(figures, HAND)
        loops = [less(per_item(figures, name), per_item(figures, name, "data"))[0] for name in (SOYC, HAND)]
        print(f"  40,000 items, of the program by hand   {figures.ratio((SOYC, 40000), (HAND, 40000))}, at most 2.0")
        print(f"  an item, of one by hand                {whole[0] / hand[0]:5.2f}, at most 1.5 "
              f"({loops[0] / loops[1]:.2f} without reading it)")
    if QUICK in names:
        print(f"  4,000 items, of quicktemplate          {figures.ratio((SOYC, 4000), (QUICK, 4000))}, below 1.0")
    micros = figures.difference("render, one message", "render, empty")[0]
    print(f"  compile                                {micros / 1000:5.2f} ms, below 3 ms")


def print_gen(figures, folder, number):
    words = figures.runs["gen"]
    summary = dict(line.split() for line in shell(folder, *words).decode().splitlines())
    page = hashlib.sha256(shell(folder, *figures.runs[SOYC, 4000])).hexdigest()
    micros, _, peak, _ = (figures.least("gen", part) for part in range(4))
    print(f"\ngen {number}: {micros / 1000:.2f} ms, {peak / 1024:.1f} MB, {summary['bytes']} bytes, "
          f"{'the same page as' if page == summary['sha256'] else 'ANOTHER PAGE than'} render of 4,000 items"
          f"{shown(figures.counted.get('gen'), 1e6, ', {:.1f} million instructions').rstrip()}")


def main():
    sys.stdout.reconfigure(line_buffering=True)
    parser = argparse.ArgumentParser(description=__doc__, formatter_class=argparse.RawDescriptionHelpFormatter)
    parser.add_argument("--soyc", type=pathlib.Path)
    parser.add_argument("--number", type=int, default=7)
    parser.add_argument("--rounds", type=int, default=15)
    parser.add_argument("--instructions", action="store_true")
    parser.add_argument("--folder", type=pathlib.Path)
    words = parser.parse_args()
    with tempfile.TemporaryDirectory() as temporary:
        folder = (words.folder or pathlib.Path(temporary)).resolve()
        folder.mkdir(parents=True, exist_ok=True)
        shell(folder, "cc", "-O2", "-o", "once", HERE / "once.c")
        soyc, built = words.soyc.resolve() if words.soyc else build_soyc(folder), {}
        for name, build in PEERS.items():
            try:
                built[name] = build(folder)
            except (RuntimeError, OSError) as fault:
                print(f"{name} is left out: {fault}")
        write_files(folder, soyc, words.number)
        runs = commands(folder, soyc, built)
        runs["gen"].append(str(words.number))
        print("pages, compared with those of soyc:")
        compare_pages(folder, runs, built)
        figures = Figures(folder, runs)
        for _ in range(words.rounds):
            figures.round()
        if words.instructions:
            figures.count_instructions()
        names = [SOYC, *built]
        print_pages(figures, names)
        print_items(figures, names)
        print_compile(figures)
        print_goals(figures, names)
        print_gen(figures, folder, words.number)


if __name__ == "__main__":
    main()
