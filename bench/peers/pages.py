#!/usr/bin/env python3
"""Pages a second of one process whose templates are compiled once: the page of examples/shop and that of `gen NUMBER`
with 40 items, by the library for C, html/template, quicktemplate, ctemplate and Jinja2, each reading the same JSON anew
for each page. Prints, after the bytes of the pages were compared, the most of the rounds, in each of which every
program makes some pages: by the time on a processor, which other work on the machine changes little, and by the clock;
and for the peers also with data that were read once, which the library has no call for.

bench/pages.sh [--library FOLDER] [--number N] [--rounds N] [--seconds S] [--folder FOLDER]

The library is that in dist/out, or in FOLDER. S is how long a program makes pages in a round. On Debian: apt install
gcc g++ golang-go golang-github-valyala-quicktemplate-dev libctemplate-dev rapidjson-dev python3-jinja2"""
import argparse
import os
import pathlib
import shutil
import subprocess
import sys
import tempfile

import compare
import workload
from compare import HERE, TOP, go, shell

SHOP = TOP / "examples/shop"
SOYC, HTML, QUICK = "soyc (C)", "html/template (Go)", "quicktemplate (Go)"
CTEMPLATE, JINJA = "ctemplate (C++)", "Jinja2"
ESCAPES_BY_PLACE = (SOYC, HTML, CTEMPLATE)
PAGES = ("shop", "gen")

# Which of soyc's bytes a peer writes otherwise on the shop's page by its own design, and how. (All write the letters of
# a link's path in lower case or as they are, which a browser takes for the same.)
PATH = "https://a.example/שיר".encode()
ENCODED = b"https://a.example/%D7%A9%D7%99%D7%A8"
SCRIPT = "'דנה'".encode()
DESIGN = {
    HTML: {ENCODED: ENCODED.lower(), b"Learn C++": b"Learn C&#43;&#43;", SCRIPT: '"דנה"'.encode(),
           b'href="about:invalid#zSoyz"': b'href="#ZgotmplZ"'},
    QUICK: {ENCODED: PATH, b'href="about:invalid#zSoyz"': b'href="javascript:alert(1)"'},
    CTEMPLATE: {ENCODED: PATH, b'href="about:invalid#zSoyz"': b'href="#"'},
    JINJA: {ENCODED: PATH, SCRIPT: b'"\\u05d3\\u05e0\\u05d4"',
            b'href="about:invalid#zSoyz"': b'href="javascript:alert(1)"'},
}


# ---- programs

def build_soyc(folder, library):
    shell(folder, "cc", "-O2", f"-I{TOP}/include", "-o", "pages_soyc", HERE / "pages.c", library / "libsoyc.a")


def build_go(folder):
    sources = folder / "pages_go"
    sources.mkdir(exist_ok=True)
    for name in ["pages.go", "items.go"]:
        shutil.copy(HERE / name, sources)
    (sources / "page.qtpl").write_text(workload.quicktemplate() + workload.shop_quicktemplate())
    go(folder, "build", "-o", "qtc", "github.com/valyala/quicktemplate/qtc")
    shell(sources, folder / "qtc", "-dir", ".")
    go(folder, "build", "-o", "pages_go_program", *sorted(sources.glob("*.go")))


def build_ctemplate(folder):
    shell(folder, "c++", "-O2", "-o", "pages_ctemplate", HERE / "pages.cc", "-lctemplate", "-lpthread")


def build_jinja2(folder):
    shell(folder, "/usr/bin/python3", "-c", "import jinja2")


def write_files(folder, number):
    texts = {
        "gen.json": workload.data(number, 40), "gen.soy": workload.soy_source(),
        "gen.html": workload.html_template(), "shop.html": workload.shop_html_template(),
        "gen.tpl": workload.ctemplate(), "shop.tpl": workload.shop_ctemplate(),
        "gen.jinja": workload.jinja2(), "shop.jinja": workload.shop_jinja2(),
    }
    for name, text in texts.items():
        (folder / name).write_text(text)
    shutil.copy(SHOP / "data.json", folder / "shop.json")
    for source in SHOP.glob("*.soy"):
        shutil.copy(source, folder)
    (folder / "gen.bundle").write_text(workload.bundle(shell(folder, folder / "soyc", "extract", "gen.soy")))


def words_of(name, page, count, once):
    """The words of a run, in the folder of the files."""
    after = ["once"] if once else []
    return {
        SOYC: ["./pages_soyc", "gen.main", "gen.json", "gen.bundle", count, "gen.soy"] if page == "gen" else
              ["./pages_soyc", "shop.list.main", "shop.json", "-", count, "layout.soy", "list.soy", "product.soy"],
        HTML: ["./pages_go_program", "html", page, f"{page}.json", count, *after, f"{page}.html"],
        QUICK: ["./pages_go_program", "quicktemplate", page, f"{page}.json", count, *after],
        CTEMPLATE: ["./pages_ctemplate", page, f"{page}.json", count, f"{page}.tpl", *after],
        JINJA: ["/usr/bin/python3", HERE / "pages_jinja2.py", page, f"{page}.json", count, f"{page}.jinja", *after],
    }[name]


def run(folder, name, page, count, once=False):
    done = subprocess.run([str(word) for word in words_of(name, page, count, once)], cwd=folder, capture_output=True)
    if done.returncode != 0:
        raise RuntimeError(f"{name}: " + done.stderr.decode(errors="replace")[-600:])
    return done.stdout


# ---- comparing and measuring

def compare_pages(folder, names):
    right = {"shop": (SHOP / "page.en.html").read_bytes(),
             "gen": shell(folder, folder / "soyc", "render", "gen.main", "gen.json", "gen.bundle", "gen.soy")}
    for name in names:
        for page in PAGES:
            verdict, wanted, theirs = [], right[page], run(folder, name, page, 0)
            design = DESIGN.get(name, {}) if page == "shop" else compare.DESIGN.get(name, {})
            if page == "gen" and name == JINJA:
                design = compare.DESIGN[QUICK]
            for ours, instead in design.items() if theirs != wanted else ():
                if ours in wanted:
                    wanted = wanted.replace(ours, instead)
                    verdict.append(f"by design {instead.decode()} for {ours.decode()}")
            if theirs != wanted:
                at = len(os.path.commonprefix([theirs, wanted]))
                near = slice(max(0, at - 40), at + 40)
                verdict.append(f"OTHER BYTES at {at}: {theirs[near]!r}, not {wanted[near]!r}")
            print(f"  {name:20} {page:5} {len(theirs):6} bytes, the same" + "".join(f"; {text}" for text in verdict))


class Figures:
    """Of each run the least microseconds a page: by the clock, and on a processor."""
    def __init__(self, folder, runs, seconds):
        self.folder, self.least = folder, {}
        self.counts = {}
        for key in runs:
            micros = self.measure(key, 30)[1]
            self.counts[key] = max(30, int(seconds * 1e6 / micros))

    def measure(self, key, count):
        name, page, once = key
        return [float(it) / count for it in run(self.folder, name, page, count, once).split()]

    def round(self):
        for key, count in self.counts.items():
            got = self.measure(key, count)
            self.least[key] = [min(pair) for pair in zip(got, self.least.get(key, got))]


def print_figures(figures, names):
    for page in PAGES:
        base = figures.least[SOYC, page, False][1] if SOYC in names else None
        title = "the shop" if page == "shop" else "40 items of gen"
        print(f"\n{title:20} pages a second on a processor  of soyc's time   by the clock   data read once")
        for name in names:
            clock, busy = figures.least[name, page, False]
            once = figures.least.get((name, page, True))
            ratio = f"{busy / base:.2f}" if base else ""
            print(f"  {name:20}{1e6 / busy:28.0f} {ratio:>15} {1e6 / clock:14.0f}"
                  + (f"{1e6 / once[1]:17.0f}" if once else f"{'':>17}")
                  + ("   escapes by place" if name in ESCAPES_BY_PLACE else ""))


def main():
    sys.stdout.reconfigure(line_buffering=True)
    parser = argparse.ArgumentParser(description=__doc__, formatter_class=argparse.RawDescriptionHelpFormatter)
    parser.add_argument("--library", type=pathlib.Path, default=TOP / "dist/out")
    parser.add_argument("--number", type=int, default=7)
    parser.add_argument("--rounds", type=int, default=7)
    parser.add_argument("--seconds", type=float, default=0.3)
    parser.add_argument("--folder", type=pathlib.Path)
    words = parser.parse_args()
    with tempfile.TemporaryDirectory() as temporary:
        folder = (words.folder or pathlib.Path(temporary)).resolve()
        folder.mkdir(parents=True, exist_ok=True)
        compare.build_soyc(folder)
        names = []
        for name, build in [(SOYC, lambda it: build_soyc(it, words.library.resolve())), (HTML, build_go),
                            (CTEMPLATE, build_ctemplate), (JINJA, build_jinja2)]:
            try:
                build(folder)
                names += [HTML, QUICK] if name == HTML else [name]
            except (RuntimeError, OSError) as fault:
                print(f"{name} is left out: {fault}")
        write_files(folder, words.number)
        print("pages, compared with those of soyc:")
        compare_pages(folder, names)
        runs = [(name, page, once) for page in PAGES for name in names for once in (False, True)
                if not (once and name == SOYC)]
        figures = Figures(folder, runs, words.seconds)
        for _ in range(words.rounds):
            figures.round()
        print_figures(figures, names)


if __name__ == "__main__":
    main()
