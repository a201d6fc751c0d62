//! The page of `gen` by hand: by_hand DATA [SHOWN] writes it, or the page of the first SHOWN items. It is for this page
//! alone, with the rules of docs/escaping.md and docs/bidi.md, tables for what is escaped, and a buffer of 64 KB.

use serde::Deserialize;
use std::borrow::Cow;
use std::fs::File;
use std::io::Write;
use std::os::unix::io::FromRawFd;

#[derive(Deserialize)]
struct Data<'a> {
    #[serde(borrow)]
    items: Vec<Item<'a>>,
}

#[derive(Deserialize)]
struct Item<'a> {
    #[serde(borrow)]
    link: Cow<'a, str>,
    n: i64,
    #[serde(borrow)]
    text: Cow<'a, str>,
    #[serde(borrow)]
    who: Cow<'a, str>,
}

/// For each byte what HTML needs instead of it, or an empty text.
const HTML: [&str; 256] = {
    let mut forms = [""; 256];
    forms[b'&' as usize] = "&amp;";
    forms[b'<' as usize] = "&lt;";
    forms[b'>' as usize] = "&gt;";
    forms[b'"' as usize] = "&quot;";
    forms[b'\'' as usize] = "&#39;";
    forms[b'\r' as usize] = "&#13;";
    forms[0] = "\u{FFFD}";
    forms
};

/// The bytes that stay in a URI.
const URI: [bool; 256] = {
    let mut stays = [false; 256];
    let kept = b"-._~:/?#[]@!$*+,;=%abcdefghijklmnopqrstuvwxyzABCDEFGHIJKLMNOPQRSTUVWXYZ0123456789";
    let mut i = 0;
    while i < kept.len() {
        stays[kept[i] as usize] = true;
        i += 1;
    }
    stays
};

#[derive(Clone, Copy, PartialEq)]
enum Strong {
    None,
    Left,
    Right,
}

/// Left or Right for letters, by the blocks of right-to-left scripts without their marks and digits.
fn strong(c: char) -> Strong {
    match c as u32 {
        0..=0x7F if c.is_ascii_alphabetic() => Strong::Left,
        0..=0x7F => Strong::None,
        0x591..=0x5BD | 0x610..=0x61A | 0x64B..=0x669 | 0x670 | 0x6D6..=0x6E4 | 0x6E7..=0x6ED => Strong::None,
        0x590..=0x8FF | 0xFB1D..=0xFDFF | 0xFE70..=0xFEFE => Strong::Right,
        0x200F | 0x10800..=0x10FFF | 0x1E800..=0x1EFFF => Strong::Right,
        0x200E => Strong::Left,
        _ if c.is_alphanumeric() => Strong::Left,
        _ => Strong::None,
    }
}

/// The direction of a text by its words; on this page the context is right to left.
fn direction(text: &str) -> &'static str {
    let (mut right, mut total, mut weak) = (0, 0, false);
    for word in text.split_whitespace() {
        match word.chars().map(strong).find(|s| *s != Strong::None) {
            Some(Strong::Right) => {
                right += 1;
                total += 1;
            }
            _ if word.starts_with("http://") || word.starts_with("https://") => weak = true,
            Some(_) => total += 1,
            None => weak |= word.bytes().any(|b| b.is_ascii_digit()),
        }
    }
    if 5 * right <= 2 * total && (total > 0 || weak) { "ltr" } else { "rtl" }
}

/// A text without isolate controls that are in no pair, and with spaces for separators.
fn cleaned(text: &str) -> Cow<'_, str> {
    if !text.bytes().any(|b| b < 0x20 || b == 0xC2 || b == 0xE2) {
        return Cow::Borrowed(text);
    }
    let (mut open, mut paired) = (Vec::new(), Vec::new());
    for (i, c) in text.char_indices() {
        match c {
            '\u{2066}'..='\u{2068}' => open.push(i),
            '\u{2069}' => paired.extend(open.pop().map(|start| [start, i]).into_iter().flatten()),
            _ => {}
        }
    }
    let mut clean = String::with_capacity(text.len());
    for (i, c) in text.char_indices() {
        match c {
            '\u{2066}'..='\u{2069}' if !paired.contains(&i) => {}
            '\t'..='\x0B' | '\r' | '\x1C'..='\x1F' | '\u{85}' | '\u{2029}' => clean.push(' '),
            _ => clean.push(c),
        }
    }
    Cow::Owned(clean)
}

fn put(out: &mut Vec<u8>, text: &str) {
    out.extend_from_slice(text.as_bytes());
}

fn put_number(out: &mut Vec<u8>, n: i64) {
    write!(out, "{}", n).unwrap();
}

fn put_html(out: &mut Vec<u8>, text: &str) {
    let mut from = 0;
    for (i, b) in text.bytes().enumerate() {
        let form = HTML[b as usize];
        if !form.is_empty() {
            put(out, &text[from..i]);
            put(out, form);
            from = i + 1;
        }
    }
    put(out, &text[from..]);
}

fn put_wrapped(out: &mut Vec<u8>, text: &str) {
    put(out, "<span dir=\"");
    put(out, direction(text));
    put(out, "\">");
    put_html(out, &cleaned(text));
    put(out, "</span>");
}

fn put_wrapped_number(out: &mut Vec<u8>, n: i64) {
    put(out, "<span dir=\"ltr\">");
    put_number(out, n);
    put(out, "</span>");
}

/// Whether a link has one of four schemes, or none.
fn is_safe_link(link: &str) -> bool {
    let begins = |scheme: &str| link.get(..scheme.len()).map_or(false, |start| start.eq_ignore_ascii_case(scheme));
    ["http:", "https:", "mailto:", "ftp:"].iter().any(|scheme| begins(scheme))
        || link.bytes().find(|b| b":/?#&".contains(b)) != Some(b':')
}

fn put_link(out: &mut Vec<u8>, link: &str) {
    if !is_safe_link(link) {
        return put(out, "about:invalid#zSoyz");
    }
    for b in link.bytes() {
        match b {
            b'&' => put(out, "&amp;"),
            _ if URI[b as usize] => out.push(b),
            _ => write!(out, "%{:02X}", b).unwrap(),
        }
    }
}

fn put_item(out: &mut Vec<u8>, item: &Item) {
    put(out, "<li><a href=\"");
    put_link(out, &item.link);
    put(out, "\">");
    put_wrapped(out, &item.who);
    put(out, "</a> ");
    put_wrapped(out, &item.text);
    put(out, " <i title=\"");
    put_html(out, &item.text);
    put(out, "\">");
    put_wrapped_number(out, item.n);
    put(out, "</i></li>");
}

fn put_message(out: &mut Vec<u8>, k: i64, n: i64) {
    put(out, "<p>[");
    if n == 1 {
        put(out, "one");
    } else {
        put_wrapped_number(out, n);
    }
    put(out, " of ");
    put_number(out, k);
    put(out, "]</p>");
}

fn main() {
    let words: Vec<String> = std::env::args().collect();
    let json = std::fs::read(&words[1]).unwrap();
    let data: Data = serde_json::from_slice(&json).unwrap();
    let shown = words.get(2).map_or(data.items.len(), |count| count.parse().unwrap());
    let mut page = unsafe { File::from_raw_fd(1) };
    let mut out = Vec::with_capacity(1 << 17);
    put(&mut out, "<ul>");
    for item in data.items.iter().take(shown) {
        put_item(&mut out, item);
        if out.len() >= 1 << 16 {
            page.write_all(&out).unwrap();
            out.clear();
        }
    }
    put(&mut out, "</ul>");
    for k in 0..200 {
        put_message(&mut out, k, k);
    }
    page.write_all(&out).unwrap();
}
