//! Takes items out of rav1e's source files and puts them into a template, so that nothing of rav1e has to be kept here.
//!
//! usage: take SOURCES TEMPLATE > OUT
//!
//! SOURCES is a folder with the crate's files: either as they are published, or flat, with `--` for each slash of a
//! path and perhaps `.txt` behind it. A line of the template that begins with `//=` stands for items of one file:
//!
//!     //= src/context/mod.rs: const MV_CLASSES; fn get_mv_class
//!
//! An item is named by the beginning of its text, without `pub`, attributes and comments. `fn f in impl T` looks for
//! the function inside that item, `impl T without f g` leaves functions of it out, and `struct S of a b` leaves all
//! fields but those out, and `enum E bare` its attributes. Else what is taken is put in as it stands.

use std::path::{Path, PathBuf};
use std::process::exit;
use std::{env, fs};

fn fail(message: String) -> ! {
    eprintln!("take: {message}");
    exit(2)
}

/// Every file below a folder.
fn files(folder: &Path, found: &mut Vec<PathBuf>) {
    let entries = fs::read_dir(folder).unwrap_or_else(|e| fail(format!("{}: {e}", folder.display())));
    for path in entries.flatten().map(|entry| entry.path()) {
        if path.is_dir() {
            files(&path, found);
        } else {
            found.push(path);
        }
    }
}

/// The text of a file of the crate.
fn source(all: &[PathBuf], wanted: &str) -> String {
    let found = all.iter().find(|path| {
        let name = path.to_string_lossy().replace("--", "/");
        let name = name.strip_suffix(".txt").unwrap_or(&name);
        name.strip_suffix(wanted).is_some_and(|before| before.is_empty() || before.ends_with('/'))
    });
    let Some(path) = found else { fail(format!("{wanted} is not among the files")) };
    fs::read_to_string(path).unwrap_or_else(|e| fail(format!("{}: {e}", path.display())))
}

/// The text with everything in comments, strings and characters blanked, byte by byte, so that brackets can be counted.
fn bare(text: &str) -> Vec<u8> {
    let mut out = text.as_bytes().to_vec();
    let mut i = 0;
    while i < out.len() {
        let rest = &text.as_bytes()[i..];
        let len = if rest.starts_with(b"//") {
            rest.iter().position(|&b| b == b'\n').unwrap_or(rest.len())
        } else if rest.starts_with(b"/*") {
            rest.windows(2).position(|w| w == b"*/").map_or(rest.len(), |at| at + 2)
        } else if rest[0] == b'"' {
            let mut end = 1;
            while end < rest.len() && rest[end] != b'"' {
                end += if rest[end] == b'\\' { 2 } else { 1 };
            }
            end + 1
        } else if rest.len() > 2 && rest[0] == b'\'' && rest[2] == b'\'' {
            3
        } else {
            i += 1;
            continue;
        };
        let end = (i + len).min(out.len());
        out[i..end].iter_mut().filter(|b| **b != b'\n').for_each(|b| *b = b' ');
        i = end;
    }
    out
}

/// The place behind the item that begins at `from`: behind its block, or behind its semicolon. A constant ends at its
/// semicolon alone.
fn end_of(bare: &[u8], from: usize, constant: bool) -> usize {
    let mut depth = 0;
    for (i, b) in bare.iter().enumerate().skip(from) {
        match b {
            b'(' | b'[' | b'{' => depth += 1,
            b')' | b']' | b'}' => {
                depth -= 1;
                if depth == 0 && *b == b'}' && !constant {
                    return i + 1;
                }
            }
            b';' if depth == 0 => return i + 1,
            _ => {}
        }
    }
    fail("an item without an end".into())
}

/// Whether `name` stands at `at` and goes no further there.
fn stands(text: &str, at: usize, name: &str) -> bool {
    let word = |c: char| c.is_alphanumeric() || c == '_';
    let before = text[..at].chars().next_back();
    let after = text[at + name.len()..].chars().next();
    !before.is_some_and(word)
        && !(name.ends_with(word) && after.is_some_and(word))
}

/// The bytes of an item, its attributes and the comments on it with it, within a part of the text.
fn item(text: &str, within: (usize, usize), name: &str) -> (usize, usize) {
    let bare = bare(text);
    let plain = String::from_utf8_lossy(&bare).into_owned();
    let Some(at) = plain[within.0..within.1]
        .match_indices(name)
        .map(|(at, _)| within.0 + at)
        .find(|&at| stands(&plain, at, name))
    else {
        fail(format!("no item begins with {name:?}"))
    };
    let mut start = plain[..at].rfind('\n').map_or(0, |n| n + 1);
    while start > 0 {
        let above = plain[..start - 1].rfind('\n').map_or(0, |n| n + 1);
        let line = text[above..start].trim_start();
        if !line.starts_with("#[") && !line.starts_with("///") {
            break;
        }
        start = above;
    }
    let constant = name.starts_with("const ") || name.starts_with("static ");
    (start, end_of(&bare, at, constant))
}

/// The fields of a struct, its other lines left out.
fn with_fields(text: &str, fields: &[&str]) -> String {
    let open = text.find('{').unwrap_or_else(|| fail("a struct without fields".into()));
    let bare = bare(text);
    let mut out = text[..=open].to_string();
    let mut kept = 0;
    let mut begin = open + 1;
    let mut depth = 0;
    for i in open + 1..text.len() - 1 {
        match bare[i] {
            b'(' | b'[' | b'{' => depth += 1,
            b')' | b']' | b'}' => depth -= 1,
            b',' if depth == 0 => {
                let field = String::from_utf8_lossy(&bare[begin..=i]).trim().to_string();
                let name = field.split(':').next().unwrap_or("").trim().trim_start_matches("pub ");
                if fields.contains(&name) {
                    out.push_str("\n  ");
                    out.push_str(&field);
                    kept += 1;
                }
                begin = i + 1;
            }
            _ => {}
        }
    }
    if kept != fields.len() {
        fail(format!("not all of the fields {fields:?} are there"));
    }
    out + "\n}"
}

/// The text that a selector names.
fn taken(text: &str, selector: &str) -> String {
    let all = (0, text.len());
    if let Some((name, outer)) = selector.split_once(" in ") {
        let (from, to) = item(text, item(text, all, outer), name);
        return text[from..to].to_string();
    }
    if let Some((name, left)) = selector.split_once(" without ") {
        let (from, to) = item(text, all, name);
        let mut out = text[from..to].to_string();
        for function in left.split(' ') {
            let (from, to) = item(&out, (0, out.len()), &format!("fn {function}"));
            out.replace_range(from..to, "");
        }
        return out;
    }
    if let Some(name) = selector.strip_suffix(" bare") {
        let (from, to) = item(text, all, name);
        let at = from + text[from..to].find(name).unwrap_or(0);
        return format!("pub {}", &text[at..to]);
    }
    if let Some((name, fields)) = selector.split_once(" of ") {
        let (from, to) = item(text, all, name);
        return with_fields(&text[from..to], &fields.split(' ').collect::<Vec<_>>());
    }
    let (from, to) = item(text, all, selector);
    text[from..to].to_string()
}

fn main() {
    let args: Vec<String> = env::args().skip(1).collect();
    let [sources, template] = &args[..] else { fail("usage: take SOURCES TEMPLATE".into()) };
    let mut all = Vec::new();
    files(Path::new(sources), &mut all);
    let template = fs::read_to_string(template).unwrap_or_else(|e| fail(format!("{template}: {e}")));
    for line in template.lines() {
        let Some(directive) = line.trim_start().strip_prefix("//= ") else {
            println!("{line}");
            continue;
        };
        let Some((file, selectors)) = directive.split_once(": ") else { fail(format!("no file: {line}")) };
        let text = source(&all, file);
        for selector in selectors.split("; ") {
            println!("{}", taken(&text, selector.trim()));
        }
    }
}
