//! The other side: Temuvald's program, run on a script.

use crate::Entry;
use crate::calls::Script;
use std::fs;
use std::path::{Path, PathBuf};
use std::process::Command;

pub struct Program {
    path: PathBuf,
    folder: PathBuf,
}

/// What the program made of a script.
pub struct Output {
    /// The answer to each call, from behind the colon.
    pub answers: Vec<String>,
    pub entries: Vec<Entry>,
    /// The bytes of the final state.
    pub state: Vec<u8>,
    /// The report's last lines.
    pub summary: Vec<String>,
}

/// A number in groups of seven bits, lowest first, and the bytes behind it.
fn number(bytes: &[u8]) -> Option<(usize, &[u8])> {
    let mut value = 0;
    for (i, &byte) in bytes.iter().enumerate().take(3) {
        value |= usize::from(byte & 127) << (7 * i);
        if byte < 128 {
            return Some((value, &bytes[i + 1..]));
        }
    }
    None
}

/// The entries that packed bytes hold.
fn unpacked(mut bytes: &[u8]) -> Option<Vec<Entry>> {
    let mut entries = Vec::new();
    while !bytes.is_empty() {
        let (s, rest) = number(bytes)?;
        let (n, rest) = number(rest)?;
        let (fl, rest) = number(rest)?;
        let (fh, rest) = number(rest)?;
        entries.push(Entry { s: s.try_into().ok()?, n: n.try_into().ok()?, fl: fl.try_into().ok()?, fh: fh.try_into().ok()? });
        bytes = rest;
    }
    Some(entries)
}

impl Program {
    /// The program at `path`, with a folder for its files.
    pub fn new(path: &str, folder: &str) -> Self {
        Program { path: Path::new(path).into(), folder: Path::new(folder).into() }
    }

    /// Runs the program on a script, which it has to take.
    pub fn run(&self, script: &Script) -> Result<Output, String> {
        let file = |name: &str| self.folder.join(name);
        let wrong = |e: std::io::Error| e.to_string();
        fs::write(file("script"), script.text()).map_err(wrong)?;
        let run = Command::new(&self.path)
            .arg("--packed")
            .arg(file("packed"))
            .arg("--state")
            .arg(file("state"))
            .arg(file("script"))
            .output()
            .map_err(wrong)?;
        if !run.status.success() {
            return Err(format!("the program failed: {}", String::from_utf8_lossy(&run.stderr)));
        }
        let text = String::from_utf8_lossy(&run.stdout).into_owned();
        let mut lines = text.lines();
        let mut answers = Vec::new();
        for (i, line) in lines.by_ref().take_while(|line| !line.is_empty()).enumerate() {
            let number = (script.first_line() + i).to_string();
            match line.split_once(": ") {
                Some((at, answer)) if at == number => answers.push(answer.to_string()),
                _ => return Err(format!("an answer to line {number} was due, came {line:?}")),
            }
        }
        if answers.len() != script.calls.len() {
            return Err(format!("{} answers to {} calls", answers.len(), script.calls.len()));
        }
        let packed = fs::read(file("packed")).map_err(wrong)?;
        let entries = unpacked(&packed).ok_or("packed bytes that are no entries")?;
        Ok(Output {
            answers,
            entries,
            state: fs::read(file("state")).map_err(wrong)?,
            summary: lines.map(str::to_string).collect(),
        })
    }
}

/// An entry's bytes, packed.
pub fn packed(entry: &Entry) -> Vec<u8> {
    let mut out = Vec::new();
    for mut value in [u16::from(entry.s), u16::from(entry.n), entry.fl, entry.fh] {
        while value > 127 {
            out.push((value & 127) as u8 | 128);
            value >>= 7;
        }
        out.push(value as u8);
    }
    out
}
