# Sourced by the benchmarks: `begin NAME CRATE..` makes a folder with these crates, as far as they are built in this
# checkout with what was built, and a program crate NAME over them, whose text is read from standard input, and
# `measure NAME` builds it and prints its figures.
top=$(cd "$(dirname "${BASH_SOURCE[0]}")/.." && pwd)
work=$(mktemp -d)
trap 'rm -rf "$work"' EXIT

# find_program [PROGRAM]: the program that is named, or the one that ./soyc runs, which it makes where it has to (with
# no words it then ends with 2).
find_program() {
    if (($# > 0)); then
        soyc=$1
    else
        "$top/soyc" >/dev/null 2>&1 || [ $? -eq 2 ]
        . "$top/.ci/made.sh"
        soyc=$top/crates/soyc/out/soyc
        if is_current dist/out; then soyc=$top/dist/out/soyc; fi
    fi
}

# items COUNT: items.json and items.soy, a list of so many items, in words and links like those of the workload of
# `gen`, and the template b.m that renders it.
items() {
    awk -v count="$1" 'BEGIN {
        split("tea Käse שלום سلام a<b R&D x,y -", words, " ")
        split("/a https://e.example/?q=1&r=2 mailto:a@e.example javascript:1", links, " ")
        printf "{\"items\":["
        for (i = 0; i < count; i++)
            printf "%s{\"link\":\"%s\",\"n\":%d,\"text\":\"%s %s\",\"who\":\"%s\"}", i ? "," : "", links[int(i / 3) % 4 + 1],
                i % 200, words[i * 3 % 8 + 1], words[(i * 7 + int(i / 8)) % 8 + 1], words[i * 5 % 8 + 1]
        print "]}"
    }' >"$work/items.json"
    printf '%s\n' '{namespace b}' '{template m}' '{@param items: list<[who: string, text: string, link: string, n: int]>}' \
        '<ul>{for $i in $items}<li><a href="{$i.link}">{$i.who}</a> {$i.text} <i title="{$i.text}">{$i.n}</i></li>{/for}</ul>' \
        '{/template}' >"$work/items.soy"
}

begin() {
    local name=$1 crate
    shift
    cp "$top/HANDLES" "$work/HANDLES"
    mkdir -p "$work/crates/$name/src"
    for crate in "$@"; do
        (cd "$top/crates" && tar --exclude=out -cf - "$crate") | (cd "$work/crates" && tar -xf -)
        grep "^$crate:" "$top/crates.txt" >>"$work/crates.txt"
        if [ -d "$top/crates/$crate/out/rlib" ]; then
            mkdir "$work/crates/$crate/out"
            cp -r "$top/crates/$crate/out/rlib" "$work/crates/$crate/out/rlib"
        fi
    done
    echo "$name: $*" >>"$work/crates.txt"
    cat >"$work/crates/$name/src/main.rt"
}

# one_text NAME: the module one_text of the program crate NAME, over html_state and bidi_preview, whose `read_page` says
# whether a page has no fault as one static text, which `preview` requires, with its proof.
one_text() {
    local crate="$work/crates/$1"
    mkdir -p "$crate/proofs/one_text/read_page"
    cat >"$crate/src/one_text.rt" <<'MODULE'
//! Whether a page has no fault as one static text.
ghost use Rattle.std.specs.Prelude.{OnOk};
ghost use Rattle.std.specs.Str.{chars};
ghost use Rattle.bidi_preview.specs.OneText.{IsOneText};

use html_state::State;
use soy_base::{Code, Kind};

/// Reads a page, or answers its first fault.
pub(crate) fn read_page(page: &str) -> Result<(), Code>
    ensures { OnOk result (IsOneText (chars page.now)) }
{
    let mut state = State::start(Kind::Html);
    for c in page.chars() {
        state.step(c)?;
    }
    state.end_text()?;
    Ok(())
}
MODULE
    echo 'mod PageStates' >"$crate/proofs/Lib.antt"
    cat >"$crate/proofs/PageStates.antt" <<'PROOF'
-- The state after a page, character by character.
use Rattle.std.proofs.Common.{◌≡◌, ℕ, List, [], ◌∷◌, sym, ap, ◌∙◌, Result, Ok}
use Rattle.soy_base.specs.declared.code.Code.{Code}
use Rattle.html_state.specs.declared.row.State.{State}
use Rattle.html_state.specs.AfterAll.{after_all}
use Rattle.html_state.specs.AfterPieces.{after_piece}
use Rattle.soy_base.specs.Piece.Piece.{Static}
use Rattle.html_state.specs.Next.{next, text_end}
use Rattle.html_state.specs.Texts.{and_then}

pub state_goes_on : (old new : State) (c : ℕ) (text rest : List ℕ) (last : Result State Code) → text ≡ c ∷ rest
    → next old c ≡ Ok new → after_all next old text ≡ last → after_all next new rest ≡ last
state_goes_on old new c text rest last left stepped so_far =
    sym (ap (after_all next old) left ∙ ap (and_then (λ following. after_all next following rest)) stepped) ∙ so_far

pub state_ends : (first last : State) (page text : List ℕ) → text ≡ [] → text_end last ≡ Ok last
    → after_all next last text ≡ after_all next first page → after_piece first (Static page) ≡ Ok last
state_ends first last page text empty ended so_far =
    ap (and_then text_end) (sym so_far ∙ ap (after_all next last) empty) ∙ ended
PROOF
    sed "s/NAME/$1/" >"$crate/proofs/one_text/read_page/Invariants.antt" <<'PROOF'
use Rattle.std.proofs.Common.{◌≡◌}
use Rattle.std.specs.Str.{chars, IsUtf8}
use Rattle.std.specs.Str.Iter.{chars_rest}
use Rattle.html_state.specs.AfterAll.{after_all}
use Rattle.html_state.specs.Next.{next}
use Rattle.html_state.specs.Start.{start}
use Rattle.soy_base.specs.declared.kind.Kind.TheVariants as kind
use Rattle.NAME.proofs.one_text.read_page.Given as goal

abbrev pub invariant-loop-c : goal.invariant-loop-c
invariant-loop-c l = record {
  utf8 : IsUtf8 (chars_rest l.c-iterator);
  rest : after_all next l.state (chars (chars_rest l.c-iterator)) ≡ after_all next (start kind.Html) (chars l.page);
}
PROOF
    sed "s/NAME/$1/" >"$crate/proofs/one_text/read_page/Answers.antt" <<'PROOF'
use Rattle.std.proofs.Common.{ap, ◌∙◌}
use Rattle.std.specs.Str.{chars}
use Rattle.std.specs.Str.Iter.{chars_rest}
use Rattle.std.proofs.lemmas.List.{nil_from_length}
use Rattle.std.proofs.lemmas.Str.{chars_past_char, chars-nil, IsUtf8-past_char}
use Rattle.NAME.proofs.PageStates.{state_goes_on, state_ends}
use Rattle.NAME.proofs.one_text.read_page.Goals as goal

pub loop-c-preserved : goal.loop-c-preserved
loop-c-preserved c = record {
  utf8 = IsUtf8-past_char (chars_rest c.loop-c.c-iterator) (chars_rest c.next.new.self) c.in-Some.c
      c.loop-c.invariant.utf8 c.in-Some.ensures.steps.0;
  rest = state_goes_on c.loop-c.state c.step.new.self c.in-Some.c (chars (chars_rest c.loop-c.c-iterator))
      (chars (chars_rest c.next.new.self)) _
      (chars_past_char (chars_rest c.loop-c.c-iterator) (chars_rest c.next.new.self) c.in-Some.c
      c.loop-c.invariant.utf8 c.in-Some.ensures.steps.0)
      c.in_ok-step.ensures.ok c.loop-c.invariant.rest;
}

pub returns : goal.returns
returns c = (
  c.loop-c.state,
  state_ends _ c.loop-c.state (chars c.args.page.now) (chars (chars_rest c.loop-c.c-iterator))
      (ap chars (nil_from_length (chars_rest c.loop-c.c-iterator) c.in-None.ensures.steps.0.0) ∙ chars-nil)
      c.in_ok-end_text.ensures.ok c.loop-c.invariant.rest,
)
PROOF
}

measure() {
    (cd "$work/crates/$1" && rt run --jobs 4 >"$work/log" 2>&1) || { cat "$work/log"; exit 1; }
    "$work/crates/$1/out/$1"
}
