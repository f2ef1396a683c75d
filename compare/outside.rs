//! What rav1e's functions do with inputs that are refused here: docs/DIFFERENCES.md lists them.

use crate::calls::{Call, Script};
use crate::with_tile;
use std::panic::{catch_unwind, set_hook};

/// Tiles, and calls that are made in them one after the other.
const INPUTS: [((usize, usize, usize), &[&str]); 35] = [
    ((2, 2, 0), &["partition 0 0 64X64 NONE"]),
    ((32, 16, 0), &["partition 0 0 128X128 HORZ"]),
    ((16, 32, 0), &["partition 0 0 128X128 VERT"]),
    ((64, 64, 7), &["partition 0 0 128X128 NONE"]),
    ((64, 64, 7), &["skip 0 0 128X128 0"]),
    ((64, 64, 7), &["context 0 0 128X128 64X64"]),
    ((64, 64, 7), &["context 0 0 64X64 64X32"]),
    ((64, 64, 7), &["vector 1 0 LOW"]),
    ((64, 64, 7), &["vector 1 0 NONE"]),
    ((64, 64, 7), &["partition 0 0 4X4 NONE"]),
    ((64, 64, 7), &["partition 0 0 16X8 NONE"]),
    ((16, 6, 0), &["partition 0 0 64X64 VERT"]),
    ((6, 16, 0), &["partition 0 0 64X64 HORZ"]),
    ((3, 2, 0), &["partition 2 0 8X8 VERT"]),
    ((64, 64, 7), &["partition 0 0 8X8 HORZ_A"]),
    ((64, 64, 7), &["partition 1 0 8X8 NONE"]),
    ((64, 64, 7), &["alphas 17 0"]),
    ((64, 64, 7), &["alphas 0 0"]),
    ((64, 64, 7), &["alphas 257 0"]),
    ((64, 64, 7), &["alphas 256 0"]),
    ((2, 2, 3), &["segment 0 0 8X8 4"]),
    ((2, 2, 8), &["segment 0 0 8X8 8"]),
    ((64, 64, 7), &["vector 16385 0 HIGH"]),
    ((4, 4, 0), &["skip 0 5 4X4 0"]),
    ((4, 4, 0), &["skip 5 0 4X4 0"]),
    ((4, 4, 0), &["skip 4 0 4X4 0"]),
    ((64, 64, 7), &["skip 1 0 8X8 0"]),
    ((16, 1026, 0), &["skip 0 1024 8X8 1"]),
    ((64, 64, 7), &["context 0 0 16X8 8X8"]),
    ((64, 64, 7), &["context 0 0 4X4 4X4"]),
    ((64, 64, 7), &["context 0 0 8X8 64X64"]),
    ((64, 64, 7), &["context 0 8 64X64 64X64"]),
    ((1024, 2, 0), &["context 1020 0 64X64 64X64"]),
    ((8, 8, 0), &["context 8 0 8X8 8X8"]),
    ((64, 64, 7), &["skip 0 0 8X8 1", "skip 4 0 8X8 1"]),
];

/// What the calls come to: the entries, the context bytes that are set, and how many cells are.
fn outcome(script: &Script) -> String {
    with_tile(script, |tile| {
        for &call in &script.calls {
            tile.call(call);
        }
        let mut out = String::from("entries");
        for entry in tile.entries() {
            out += &format!(" ({}, {}, {}, {})", entry.s, entry.n, entry.fl, entry.fh);
        }
        let state = tile.state();
        for (name, bytes) in [("above", &state.above[..]), ("left", &state.left[..])] {
            for (at, byte) in bytes.iter().enumerate().filter(|(_, byte)| **byte != 0) {
                out += &format!(", {name} byte {at} is {byte}");
            }
        }
        let set = state.cells.iter().filter(|cell| cell.skip || cell.segmentation_idx != 0).count();
        format!("{out}; {set} cells set")
    })
}

/// Prints what each input comes to.
pub fn run() {
    set_hook(Box::new(|_| {}));
    for ((columns, rows, last), lines) in INPUTS {
        let calls = lines.iter().map(|line| Call::parse(line).expect("a call")).collect();
        let script = Script { columns, rows, last, head: String::new(), calls };
        let came = catch_unwind(|| outcome(&script)).unwrap_or_else(|why| {
            let text = why.downcast_ref::<String>().map(String::as_str).or(why.downcast_ref::<&str>().copied());
            format!("panics: {}", text.unwrap_or("").replace('\n', " "))
        });
        println!("tile {columns} {rows} {last}; {}: {came}", lines.join("; "));
    }
}
