#!/usr/bin/env bash
# Renders a list of items by pulls into a room of 4,096 bytes, by a program that is made here: microseconds an item and
# MB a second, beside a loop that makes the same bytes of the same data with `escape` and `wrap`; the least of nine runs
# each. Then the memory that a rendering takes at most beside its data, for lists of three lengths. Run it from
# anywhere: `bench/render_core.sh`.
set -eu
. "$(dirname "$0")/setup.sh"

begin bench_render_core soy_base plural_rules esc_table bidi_class script_state escapers bidi_text value_cursor \
    html_state soy_tree soy_expr soy_meaning template_ir render_core \
    soy_rules \
    soy_pieces msg_extract <<'PROGRAM'
#![tactic(auto)]

ghost use Rattle.std.specs.Prelude.{◌≡◌, ◌<◌, IfOk, true};
ghost use Rattle.soy_expr.specs.Ascii.{is_ascii};
ghost use Rattle.soy_tree.specs.ViewExpressions.{view_expr};
ghost use Rattle.soy_tree.specs.ViewTypes.{view_field, view_type};
ghost use Rattle.template_ir.specs.Ops.{PrintOp, StaticOp};
ghost use Rattle.template_ir.specs.ViewOps.{view_op, view_ops, view_program, view_routine};
ghost use Rattle.bench_render_core.specs.Items.{item_field, items_ops, items_program, items_routine, items_type, variable};

use bidi_text::wrap;
use escapers::{Escaper, escape, escaper_for};
use plural_rules::Rules;
use render_core::Rendering;
use soy_base::{Boxed, Dir, Kind, OutOfMemory, Place, Seq, Span, Steps, Text, ValueClass};
use soy_tree::{Entry, Expr, ExprNode, Field, Param, SoyType, Value};
use std::alloc::Global;
use std::marker::Brand;
use std::rt::{Clock, Files};
use std::sync::ledger::{Blank, Ledger};
use std::time::Instant;
use std::{fs, io};
use template_ir::{Block, Op, Program, ProgramParts, Routine};

const NOWHERE: Span = Span { start: 0, end: 0 };
const WORDS: [&str; 8] = ["tea", "Käse", "שלום", "سلام", "a<b", "R&D", "x y", ""];
const LINKS: [&str; 4] = ["/a", "https://e.example/?q=1&r=2", "mailto:a@e.example", "javascript:1"];

/// A text of ASCII characters.
#[tactic(auto, using(soy_expr::proofs::AsciiTexts::chars_ascii))]
fn text(alloc: Global, text: &str) -> Result<Text, OutOfMemory>
    requires { is_ascii text.now ≡ true }
    ensures { IfOk result (λ t. t ≡ text.now) }
{
    match String::from_str(alloc, text) {
        Ok(text) => Ok(Text::new(text)),
        Err(_) => Err(OutOfMemory),
    }
}

fn variable(alloc: Global, name: &str) -> Result<Expr, OutOfMemory>
    requires { is_ascii name.now ≡ true }
    ensures { IfOk result (λ e. view_expr e ≡ variable name.now) }
{
    let node = ExprNode::Var(text(alloc, name)?);
    Expr::new(alloc, node, NOWHERE)
}

/// A field of the item.
fn item_field(alloc: Global, name: &str) -> Result<Expr, OutOfMemory>
    requires { is_ascii name.now ≡ true }
    ensures { IfOk result (λ e. view_expr e ≡ item_field name.now) }
{
    let item = variable(alloc, "i")?;
    let node = ExprNode::Member(item, text(alloc, name)?, false);
    Expr::new(alloc, node, NOWHERE)
}

fn field(alloc: Global, name: &str, of: SoyType) -> Result<Field, OutOfMemory>
    requires { is_ascii name.now ≡ true }
    ensures { IfOk result (λ f. view_field f ≡ (name.now, view_type of)) }
{
    let name = text(alloc, name)?;
    Ok(Field { name, of })
}

fn items_type(alloc: Global) -> Result<SoyType, OutOfMemory>
    ensures { IfOk result (λ t. view_type t ≡ items_type) }
{
    let who = field(alloc, "who", SoyType::Str)?;
    let text = field(alloc, "text", SoyType::Str)?;
    let link = field(alloc, "link", SoyType::Str)?;
    let n = field(alloc, "n", SoyType::Int)?;
    let fields = Vec::from_array(alloc, [who, text, link, n])?;
    let item = Boxed::new(alloc, SoyType::Fields(Seq::new(fields)))?;
    Ok(SoyType::List(item))
}

fn print(alloc: Global, name: &str, place: Place) -> Result<Op, OutOfMemory>
    requires { is_ascii name.now ≡ true }
    ensures { IfOk result (λ o. view_op o ≡ PrintOp (item_field name.now) place) }
{
    let field = item_field(alloc, name)?;
    Ok(Op::Print(field, place))
}

fn fixed(alloc: Global, written: &str) -> Result<Op, OutOfMemory>
    requires { is_ascii written.now ≡ true }
    ensures { IfOk result (λ o. view_op o ≡ StaticOp written.now) }
{
    let text = text(alloc, written)?;
    Ok(Op::Static(text))
}

/// The ops of `<li><a href="{$i.link}">{$i.who}</a> {$i.text} <i title="{$i.text}">{$i.n}</i></li>`, then those of
/// `<ul>`, a loop with that body over `$items`, and `</ul>`.
fn items_ops(alloc: Global) -> Result<Vec<Op>, OutOfMemory>
    ensures { IfOk result (λ ops. view_ops ops.items ≡ items_ops) }
{
    let name = text(alloc, "i")?;
    let items = variable(alloc, "items")?;
    let ops = [
        fixed(alloc, "<li><a href=\"")?,
        print(alloc, "link", Place::UriStart)?,
        fixed(alloc, "\">")?,
        print(alloc, "who", Place::Text)?,
        fixed(alloc, "</a> ")?,
        print(alloc, "text", Place::Text)?,
        fixed(alloc, " <i title=\"")?,
        print(alloc, "text", Place::Attr)?,
        fixed(alloc, "\">")?,
        print(alloc, "n", Place::Text)?,
        fixed(alloc, "</i></li>")?,
        fixed(alloc, "<ul>")?,
        Op::For(name, None, items, Block { first: 0, end: 11 }),
        fixed(alloc, "</ul>")?,
    ];
    Ok(Vec::from_array(alloc, ops)?)
}

fn items_routine(alloc: Global) -> Result<Routine, OutOfMemory>
    ensures { IfOk result (λ r. view_routine r ≡ items_routine) }
{
    let name = text(alloc, "items")?;
    let of = items_type(alloc)?;
    let param = Param { name, of, required: true, span: NOWHERE };
    let params = Vec::from_array(alloc, [param])?;
    let name = text(alloc, "gen.main")?;
    Ok(Routine {
        name,
        kind: Kind::Html,
        private: false,
        params: Seq::new(params),
        body: Block { first: 11, end: 14 },
    })
}

fn items_parts(alloc: Global) -> Result<ProgramParts, OutOfMemory>
    ensures { IfOk result (λ p. view_program p ≡ items_program) }
{
    let routine = items_routine(alloc)?;
    let templates = Vec::from_array(alloc, [routine])?;
    let ops = items_ops(alloc)?;
    Ok(ProgramParts {
        templates: Seq::new(templates),
        ops: Seq::new(ops),
        dir: Dir::Ltr,
        plural: Rules::none(alloc),
        ordinal: Rules::none(alloc),
    })
}

fn items_program(alloc: Global) -> Result<Program, OutOfMemory> {
    let parts = items_parts(alloc)?;
    Ok(Program::new(parts))
}

/// The next state of the draws.
fn next(state: u64) -> u64 {
    state.wrapping_mul(6_364_136_223_846_793_005).wrapping_add(1_442_695_040_888_963_407)
}

/// A draw of so many, of which there is at least one.
fn pick(state: u64, of: u64) -> usize {
    ((state >> 33) % of.max(1)) as usize
}

fn entry(alloc: Global, name: &str, value: Value) -> Option<Entry> {
    let name = Text::new(String::from_str(alloc, name).ok()?);
    Some(Entry { name, value })
}

fn joined(alloc: Global, first: &str, second: &str) -> Option<Value> {
    let mut text = String::from_str(alloc, first).ok()?;
    text.push_str(second).ok()?;
    Some(Value::Str(Text::new(text)))
}

/// An item, and the state after its five draws.
fn item(alloc: Global, state: u64) -> Option<(Value, u64)> {
    let a = next(state);
    let b = next(a);
    let c = next(b);
    let d = next(c);
    let e = next(d);
    let mut fields = Vec::new(alloc);
    fields.push(entry(alloc, "who", joined(alloc, WORDS.get(pick(a, 8))?, "")?)?).ok()?;
    let mut words = String::from_str(alloc, WORDS.get(pick(b, 8))?).ok()?;
    words.push_str(" ").ok()?;
    fields.push(entry(alloc, "text", joined(alloc, words.as_str(), WORDS.get(pick(c, 8))?)?)?).ok()?;
    fields.push(entry(alloc, "link", joined(alloc, LINKS.get(pick(d, 4))?, "")?)?).ok()?;
    let number = i64::try_from(pick(e, 200)).ok()?;
    fields.push(entry(alloc, "n", Value::Int(number))?).ok()?;
    Some((Value::Fields(Seq::new(fields)), e))
}

/// The data of so many items.
fn input(alloc: Global, count: usize) -> Option<Value> {
    let mut items = Vec::with_capacity(alloc, count).ok()?;
    let mut state = 7;
    for _ in 0..count {
        let (value, after) = item(alloc, state)?;
        state = after;
        items.push(value).ok()?;
    }
    let mut fields = Vec::new(alloc);
    fields.push(entry(alloc, "items", Value::List(Seq::new(items)))?).ok()?;
    Some(Value::Fields(Seq::new(fields)))
}

/// The number of bytes that pulls give, which go to a page if there is one.
fn pulled<L: Ledger>(
    alloc: Global,
    program: &Program,
    input: &Value,
    room: &mut [u8],
    page: &mut Option<Vec<u8>>,
    blank: Blank,
) -> Option<usize>
    requires name { blank.name ≡ L.name }
    requires parts { blank.parts ≡ L.parts }
    requires some { 0 < blank.parts }
{
    let mut steps = Steps::<L>::new(blank);
    let mut rendering = Rendering::begin(alloc, program, input, 0).ok()?;
    let mut count = 0usize;
    for _ in 0..u64::MAX {
        match rendering.pull(program, input, room, &mut steps) {
            Ok(0) => return Some(count),
            Ok(n) => {
                count = count.saturating_add(n);
                if let Some(page) = page {
                    page.extend_from_slice(room.get(..n)?).ok()?;
                }
            }
            Err(_) => return None,
        }
    }
    None
}

fn rendered(alloc: Global, program: &Program, input: &Value, page: &mut Option<Vec<u8>>) -> usize {
    let mut room = [0u8; 4096];
    pulled::<Brand>(alloc, program, input, room.as_mut_slice(), page, Blank::new(1)).unwrap_or(0)
}

fn field_of<'a>(entries: &'a [Entry], name: &str) -> Option<&'a Value> {
    for entry in entries {
        if entry.name.is(name) {
            return Some(&entry.value);
        }
    }
    None
}

fn string_of<'a>(entries: &'a [Entry], name: &str) -> Option<&'a str> {
    match field_of(entries, name)? {
        Value::Str(text) => Some(text.text()),
        _ => None,
    }
}

/// Adds a text as it is escaped at a place, if it is there.
fn push_escaped(alloc: Global, out: &mut String, place: Place, class: ValueClass, text: &str) -> Option<()> {
    let how = escaper_for(place, class)?;
    match how {
        Escaper::AsIs => None,
        Escaper::Wrap => out.push_str(wrap(alloc, text, Dir::Ltr).ok()?.as_str()).ok(),
        _ => out.push_str(escape(alloc, how, class, text, Dir::Ltr).ok()?.as_str()).ok(),
    }
}

/// An item, written by hand.
fn push_item(alloc: Global, out: &mut String, value: &Value) -> Option<()> {
    let Value::Fields(fields) = value else {
        return None;
    };
    let fields = fields.items();
    out.push_str("<li><a href=\"").ok()?;
    push_escaped(alloc, out, Place::UriStart, ValueClass::Text, string_of(fields, "link")?)?;
    out.push_str("\">").ok()?;
    push_escaped(alloc, out, Place::Text, ValueClass::Text, string_of(fields, "who")?)?;
    out.push_str("</a> ").ok()?;
    push_escaped(alloc, out, Place::Text, ValueClass::Text, string_of(fields, "text")?)?;
    out.push_str(" <i title=\"").ok()?;
    push_escaped(alloc, out, Place::Attr, ValueClass::Text, string_of(fields, "text")?)?;
    out.push_str("\">").ok()?;
    if let Some(Value::Int(number)) = field_of(fields, "n") {
        let digits = number.to_string(alloc).ok()?;
        push_escaped(alloc, out, Place::Text, ValueClass::Int, digits.as_str())?;
    }
    out.push_str("</i></li>").ok()
}

/// The number of bytes that the loop by hand makes, an item at a time, which go to a page if there is one.
fn by_hand(alloc: Global, input: &Value, page: &mut Option<Vec<u8>>) -> Option<usize> {
    let Value::Fields(fields) = input else {
        return None;
    };
    let Some(Value::List(items)) = field_of(fields.items(), "items") else {
        return None;
    };
    let mut out = String::new(alloc);
    out.push_str("<ul>").ok()?;
    let mut count = 0usize;
    for value in items.items() {
        push_item(alloc, &mut out, value)?;
        count = count.saturating_add(out.len());
        if let Some(page) = page {
            page.extend_from_slice(out.as_bytes()).ok()?;
        }
        out.clear();
    }
    if let Some(page) = page {
        page.extend_from_slice(b"</ul>").ok()?;
    }
    Some(count.saturating_add(5))
}

/// The least nanoseconds of nine runs.
fn best<F: FnMut() -> usize>(rt: &(impl Print + Clock), mut run: F) -> io::Result<u128>
    requires { F.IsAlwaysCallable run }
{
    let mut best = u128::MAX;
    let mut len = 0usize;
    for _ in 0..9u32 {
        let start = Instant::now(rt)?;
        len = len.wrapping_add(run());
        best = best.min(start.elapsed(rt)?.as_nanos());
    }
    if len == 0 {
        println!(rt; "nothing was made")?;
    }
    Ok(best)
}

fn times(rt: &(impl Print + Clock), alloc: Global, program: &Program, count: usize) -> io::Result<()> {
    let Some(input) = input(alloc, count) else {
        return Ok(());
    };
    let mut page = Some(Vec::new(alloc));
    let bytes = rendered(alloc, program, &input, &mut page);
    let mut other = Some(Vec::new(alloc));
    let _ = by_hand(alloc, &input, &mut other);
    let same = match (&page, &other) {
        (Some(page), Some(other)) => page.as_slice() == other.as_slice(),
        _ => false,
    };
    let core = best(rt, || rendered(alloc, program, &input, &mut None))?;
    let hand = best(rt, || by_hand(alloc, &input, &mut None).unwrap_or(0))?;
    let (core_item, hand_item) = (core / (count as u128).max(1), hand / (count as u128).max(1));
    let (core_rate, hand_rate) = (bytes as u128 * 1000 / core.max(1), bytes as u128 * 1000 / hand.max(1));
    let ratio = core.saturating_mul(100) / hand.max(1);
    println!(rt; "{count} items, {bytes} bytes, same bytes {same}: pulls {core_item} ns an item, {core_rate} MB a second; by hand {hand_item} ns, {hand_rate} MB a second; {ratio} % of its time")
}

/// The kB of a line of the process's status.
fn status(rt: &(impl Files + AllocGlobal), name: &str) -> io::Result<u64> {
    let text = fs::read_to_string(rt, "/proc/self/status")?;
    for line in text.as_str().lines() {
        if let Some(rest) = line.strip_prefix(name) {
            for word in rest.split_whitespace() {
                if let Ok(number) = word.parse::<u64>() {
                    return Ok(number);
                }
            }
        }
    }
    Ok(0)
}

/// The memory that a rendering of so many items takes at most beside its data.
fn memory(rt: &(impl Print + Files + AllocGlobal), program: &Program, count: usize) -> io::Result<()> {
    let alloc = rt.alloc();
    let Some(input) = input(alloc, count) else {
        return Ok(());
    };
    fs::write(rt, "/proc/self/clear_refs", "5")?;
    let before = status(rt, "VmRSS:")?;
    let bytes = rendered(alloc, program, &input, &mut None);
    let most = status(rt, "VmHWM:")?;
    let taken = most.saturating_sub(before);
    println!(rt; "{count} items, {bytes} bytes: {before} kB before, {taken} kB more at most")
}

fn main(rt: HostRuntime) -> io::Result<()> {
    let alloc = rt.alloc();
    let Ok(program) = items_program(alloc) else {
        return println!(rt; "out of memory");
    };
    for count in [4000, 40000, 400000] {
        memory(&rt, &program, count)?;
    }
    for count in [4000, 40000] {
        times(&rt, alloc, &program, count)?;
    }
    Ok(())
}
PROGRAM

crate="$work/crates/bench_render_core"
mkdir -p "$crate/specs" "$crate/proofs/pulled" "$crate/proofs/rendered" "$crate/proofs/items_program"
echo "pub mod Items" >"$crate/specs/Lib.antt"
cat >"$crate/specs/Items.antt" <<'SPECS'
-- The program of the list of items.
use Rattle.std.specs.Prelude.{true, false, List, [], ◌∷◌, None, codes}
use Rattle.soy_base.specs.declared.fault.Span.{Span}
use Rattle.soy_base.specs.declared.direction.Dir.TheVariants as dir
use Rattle.soy_base.specs.declared.kind.Kind.TheVariants as kind
use Rattle.soy_base.specs.declared.place.Place.TheVariants as place
use Rattle.soy_tree.specs.Types.{Name, SoyType, IntType, ListType, RecordType, StringType, field, no_field}
use Rattle.soy_tree.specs.Expressions.{Expr, Member, Variable}
use Rattle.soy_tree.specs.Trees.{Param}
use Rattle.template_ir.specs.Ops.{Op, Program, Routine, ForOp, PrintOp, StaticOp}

abbrev pub nowhere : Span
nowhere = record { start = 0; end = 0 }

abbrev pub variable : Name → Expr
variable name = Variable name nowhere

-- a field of the item
abbrev pub item_field : Name → Expr
item_field name = Member (variable (codes "i")) name false nowhere

abbrev pub items_type : SoyType
items_type = ListType (RecordType (field (codes "who") StringType (field (codes "text") StringType
    (field (codes "link") StringType (field (codes "n") IntType no_field)))))

abbrev pub items_param : Param
items_param = record { name = codes "items"; of = items_type; required = true; span = nowhere }

abbrev pub items_ops : List Op
items_ops =
    StaticOp (codes "<li><a href=\"") ∷ PrintOp (item_field (codes "link")) place.UriStart
    ∷ StaticOp (codes "\">") ∷ PrintOp (item_field (codes "who")) place.Text
    ∷ StaticOp (codes "</a> ") ∷ PrintOp (item_field (codes "text")) place.Text
    ∷ StaticOp (codes " <i title=\"") ∷ PrintOp (item_field (codes "text")) place.Attr
    ∷ StaticOp (codes "\">") ∷ PrintOp (item_field (codes "n")) place.Text
    ∷ StaticOp (codes "</i></li>") ∷ StaticOp (codes "<ul>")
    ∷ ForOp (codes "i") None (variable (codes "items")) (record { first = 0; end = 11 })
    ∷ StaticOp (codes "</ul>") ∷ []

abbrev pub items_routine : Routine
items_routine = record {
  name = codes "gen.main";
  kind = kind.Html;
  private = false;
  params = items_param ∷ [];
  body = record { first = 11; end = 14 };
}

abbrev pub items_program : Program
items_program =
    record { templates = items_routine ∷ []; ops = items_ops; direction = dir.Ltr; plural = []; ordinal = [] }
SPECS
cat >"$crate/proofs/items_program/Answers.antt" <<'PROOF'
use Rattle.std.proofs.Common.{refl, subst, sym}
use Rattle.std.specs.Bool.{IsTrue}
use Rattle.template_ir.specs.Ops.{Program}
use Rattle.template_ir.specs.Sound.{is_sound}
use Rattle.bench_render_core.proofs.items_program.Goals as goal

pub new-requires : goal.new-requires
new-requires c = subst (λ (p : Program). IsTrue (is_sound p)) (sym c.in_ok-parts.ensures) refl
PROOF
cat >"$crate/proofs/pulled/Invariants.antt" <<'PROOF'
use Rattle.soy_tree.specs.ViewValues.{view_value}
use Rattle.render_core.specs.Rest.{Fits}
use Rattle.bench_render_core.proofs.pulled.Given as goal

abbrev pub invariant-loop : goal.invariant-loop
invariant-loop g l = Fits l.program (view_value l.input) l.rendering
PROOF
cat >"$crate/proofs/rendered/Invariants.antt" <<'PROOF'
use Rattle.bench_render_core.proofs.rendered.Given as goal

abbrev pub ghosts-pulled : goal.ghosts-pulled
ghosts-pulled a = record { name = a.blank.name; parts = a.blank.parts }
PROOF

measure bench_render_core
