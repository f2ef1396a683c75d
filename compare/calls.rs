//! The calls of a script, as text and as values, and random scripts of them.

use crate::random::Random;
use std::fmt;

/// The names of the sizes, in rav1e's order.
const SIZES: [&str; 22] = [
    "4X4", "4X8", "8X4", "8X8", "8X16", "16X8", "16X16", "16X32", "32X16", "32X32", "32X64", "64X32", "64X64", "64X128",
    "128X64", "128X128", "4X16", "16X4", "8X32", "32X8", "16X64", "64X16",
];

const PARTITIONS: [&str; 10] =
    ["NONE", "HORZ", "VERT", "SPLIT", "HORZ_A", "HORZ_B", "VERT_A", "VERT_B", "HORZ_4", "VERT_4"];

const PRECISIONS: [&str; 3] = ["NONE", "LOW", "HIGH"];

const SQUARES: [usize; 4] = [3, 6, 9, 12];

/// Those that have no side of 128 pixels.
const ALL_SIZES: [usize; 19] = [0, 1, 2, 3, 4, 5, 6, 7, 8, 9, 10, 11, 12, 16, 17, 18, 19, 20, 21];

/// Width and height of a size in units.
fn sides(size: usize) -> (usize, usize) {
    let (width, height) = SIZES[size].split_once('X').unwrap();
    (width.parse::<usize>().unwrap() / 4, height.parse::<usize>().unwrap() / 4)
}

/// A size, a partition and a precision are places in the lists above.
#[derive(Clone, Copy, Debug, PartialEq)]
pub enum Call {
    Partition { x: usize, y: usize, size: usize, partition: usize },
    Skip { x: usize, y: usize, size: usize, skip: bool },
    Segment { x: usize, y: usize, size: usize, id: Option<usize> },
    Alphas { u: i32, v: i32 },
    Vector { row: i32, col: i32, precision: usize },
    Context { x: usize, y: usize, size: usize, subsize: usize },
    Row,
    Open,
    Back(Option<usize>),
    Keep(Option<usize>),
}

fn depth(f: &mut fmt::Formatter, word: &str, depth: Option<usize>) -> fmt::Result {
    match depth {
        Some(depth) => write!(f, "{word} {depth}"),
        None => f.write_str(word),
    }
}

impl fmt::Display for Call {
    fn fmt(&self, f: &mut fmt::Formatter) -> fmt::Result {
        match *self {
            Call::Partition { x, y, size, partition } => {
                write!(f, "partition {x} {y} {} {}", SIZES[size], PARTITIONS[partition])
            }
            Call::Skip { x, y, size, skip } => write!(f, "skip {x} {y} {} {}", SIZES[size], u8::from(skip)),
            Call::Segment { x, y, size, id: Some(id) } => write!(f, "segment {x} {y} {} {id}", SIZES[size]),
            Call::Segment { x, y, size, id: None } => write!(f, "segment {x} {y} {} skipped", SIZES[size]),
            Call::Alphas { u, v } => write!(f, "alphas {u} {v}"),
            Call::Vector { row, col, precision } => write!(f, "vector {row} {col} {}", PRECISIONS[precision]),
            Call::Context { x, y, size, subsize } => write!(f, "context {x} {y} {} {}", SIZES[size], SIZES[subsize]),
            Call::Row => f.write_str("row"),
            Call::Open => f.write_str("open"),
            Call::Back(at) => depth(f, "back", at),
            Call::Keep(at) => depth(f, "keep", at),
        }
    }
}

fn place(names: &[&str], name: &str) -> Option<usize> {
    names.iter().position(|&n| n == name)
}

/// The words that calls begin with.
pub const KINDS: [&str; 10] =
    ["partition", "skip", "segment", "alphas", "vector", "context", "row", "open", "back", "keep"];

impl Call {
    /// Its place among the kinds.
    pub fn kind(self) -> usize {
        match self {
            Call::Partition { .. } => 0,
            Call::Skip { .. } => 1,
            Call::Segment { .. } => 2,
            Call::Alphas { .. } => 3,
            Call::Vector { .. } => 4,
            Call::Context { .. } => 5,
            Call::Row => 6,
            Call::Open => 7,
            Call::Back(_) => 8,
            Call::Keep(_) => 9,
        }
    }

    /// The call of a script's line.
    pub fn parse(line: &str) -> Option<Call> {
        let words: Vec<&str> = line.split('#').next()?.split_whitespace().collect();
        Some(match words[..] {
            ["partition", x, y, size, partition] => Call::Partition {
                x: x.parse().ok()?,
                y: y.parse().ok()?,
                size: place(&SIZES, size)?,
                partition: place(&PARTITIONS, partition)?,
            },
            ["skip", x, y, size, skip] => Call::Skip {
                x: x.parse().ok()?,
                y: y.parse().ok()?,
                size: place(&SIZES, size)?,
                skip: skip == "1",
            },
            ["segment", x, y, size, id] => Call::Segment {
                x: x.parse().ok()?,
                y: y.parse().ok()?,
                size: place(&SIZES, size)?,
                id: if id == "skipped" { None } else { Some(id.parse().ok()?) },
            },
            ["alphas", u, v] => Call::Alphas { u: u.parse().ok()?, v: v.parse().ok()? },
            ["vector", row, col, precision] => Call::Vector {
                row: row.parse().ok()?,
                col: col.parse().ok()?,
                precision: place(&PRECISIONS, precision)?,
            },
            ["context", x, y, size, subsize] => Call::Context {
                x: x.parse().ok()?,
                y: y.parse().ok()?,
                size: place(&SIZES, size)?,
                subsize: place(&SIZES, subsize)?,
            },
            ["row"] => Call::Row,
            ["open"] => Call::Open,
            ["back"] => Call::Back(None),
            ["back", at] => Call::Back(Some(at.parse().ok()?)),
            ["keep"] => Call::Keep(None),
            ["keep", at] => Call::Keep(Some(at.parse().ok()?)),
            _ => return None,
        })
    }
}

pub struct Script {
    pub columns: usize,
    pub rows: usize,
    pub last: usize,
    /// Lines between the tile and the first call, empty or with their ends.
    pub head: String,
    pub calls: Vec<Call>,
}

impl Script {
    /// The script's text. The first call stands in the line behind the head.
    pub fn text(&self) -> String {
        let mut out = format!("tile {} {} {}\n{}", self.columns, self.rows, self.last, self.head);
        for call in &self.calls {
            out += &format!("{call}\n");
        }
        out
    }

    /// The number of the first call's line.
    pub fn first_line(&self) -> usize {
        2 + self.head.lines().count()
    }
}

/// What a script leans to: how often each kind of call comes, how often a call comes again, and how often what is asked
/// cannot be done.
struct Habits {
    kinds: [usize; 9],
    sizes: Vec<usize>,
    squares: Vec<usize>,
    again: usize,
    wrong: usize,
    /// The square, in units, that most blocks lie in.
    corner: (usize, usize),
}

impl Habits {
    fn new(r: &mut Random, columns: usize, rows: usize) -> Self {
        let mut kinds = [0; 9];
        for weight in &mut kinds {
            *weight = r.of(&[0, 1, 3, 10, 30]);
        }
        // Partitions, skips or segments come in every script, and rows seldom: most scripts have an open trial.
        kinds[r.below(3)] += 20;
        kinds[6] = r.of(&[0, 1, 2]);
        kinds[7] = r.of(&[0, 2, 8, 20]);
        kinds[8] = kinds[7];
        let few = |r: &mut Random, all: &[usize]| {
            if r.chance(50) { all.to_vec() } else { vec![r.of(all), r.of(all)] }
        };
        Habits {
            kinds,
            sizes: few(r, &ALL_SIZES),
            squares: few(r, &SQUARES),
            again: r.of(&[0, 0, 20, 70]),
            wrong: r.of(&[0, 3, 10]),
            corner: (corner(r, columns), corner(r, rows)),
        }
    }
}

/// Where a square of 16 units begins: at either end of the side, or anywhere.
fn corner(r: &mut Random, side: usize) -> usize {
    let last = (side - 1) / 16 * 16;
    match r.below(3) {
        0 => 0,
        1 => last,
        _ => r.below(last / 16 + 1) * 16,
    }
}

/// A coordinate for a block of `step` units: in the square, at the last one that fits, or anywhere; and seldom a wrong
/// one.
fn coordinate(r: &mut Random, wrong: usize, side: usize, step: usize, corner: usize) -> usize {
    if r.chance(wrong) {
        return r.below(side + 2 * step);
    }
    let last = (side - 1) / step * step;
    match r.below(8) {
        0 => last,
        1 => r.below(last / step + 1) * step,
        _ => {
            let within = r.below(16.min(side - corner.min(side - 1)).div_ceil(step).max(1));
            (corner / step * step + within * step).min(last)
        }
    }
}

fn alpha(r: &mut Random, wrong: usize) -> i32 {
    if r.chance(wrong) {
        return r.of(&[-17, 17, -256, 256, 257]);
    }
    match r.below(4) {
        0 => r.of(&[-16, 16]),
        1 => r.of(&[-1, 0, 1]),
        _ => r.below(33) as i32 - 16,
    }
}

/// A component: zero, an end of the range, an end of a class, or any; most times as coarse as the precision asks.
fn component(r: &mut Random, wrong: usize, precision: usize) -> i32 {
    if r.chance(wrong) {
        return r.of(&[-16385, 16385, 3, -7, 20000]);
    }
    let step = [8, 2, 1][precision];
    let class = r.below(11);
    let magnitude = match r.below(6) {
        0 => 0,
        1 => 16384,
        2 => (16 << class.min(9)) + step * (r.below(3) as i32 - 1),
        3 => 1 + r.below(32) as i32,
        4 => 1 + r.below(16 << class) as i32,
        _ => 1 + r.below(16384) as i32,
    };
    let magnitude = (magnitude / step * step).min(16384);
    if r.chance(50) { magnitude } else { -magnitude }
}

fn call(r: &mut Random, habits: &Habits, columns: usize, rows: usize, last: usize, open: usize) -> Call {
    let wrong = habits.wrong;
    let kind = r.weighted(&habits.kinds);
    let size = match kind {
        0 | 5 if !r.chance(wrong) => r.of(&habits.squares),
        _ => r.of(&habits.sizes),
    };
    let (width, height) = sides(size);
    let x = coordinate(r, wrong, columns, width, habits.corner.0);
    let y = coordinate(r, wrong, rows, height, habits.corner.1);
    match kind {
        0 => {
            let (below, beside) = (y + height / 2 < rows, x + width / 2 < columns);
            let allowed: &[usize] = match (below, beside) {
                _ if r.chance(wrong) => &[0, 1, 2, 3, 4, 5, 6, 7, 8, 9],
                (true, true) if size == 3 => &[0, 1, 2, 3],
                (true, true) => &[0, 1, 2, 3, 4, 5, 6, 7, 8, 9],
                (false, true) => &[1, 3],
                (true, false) => &[2, 3],
                (false, false) => &[3],
            };
            Call::Partition { x, y, size, partition: r.of(allowed) }
        }
        1 => Call::Skip { x, y, size, skip: r.chance(50) },
        2 => {
            let id = match r.below(8) {
                0 => Some(last),
                1 => Some(last + usize::from(r.chance(wrong))),
                2 | 3 => None,
                _ => Some(r.below(last + 1)),
            };
            Call::Segment { x, y, size, id }
        }
        3 => Call::Alphas { u: alpha(r, wrong), v: alpha(r, wrong) },
        4 => {
            let precision = r.below(3);
            Call::Vector { row: component(r, wrong, precision), col: component(r, wrong, precision), precision }
        }
        5 => {
            let fits = |sub: &usize| sides(*sub).0 <= width && sides(*sub).1 <= height;
            let subsizes: Vec<usize> = ALL_SIZES.iter().copied().filter(fits).collect();
            let subsize = if r.chance(wrong) { r.of(&ALL_SIZES) } else { r.of(&subsizes) };
            Call::Context { x, y, size, subsize }
        }
        6 => Call::Row,
        7 => Call::Open,
        _ => {
            let at = if r.chance(wrong) { Some(r.below(18)) } else { None };
            // The deeper, the more often a trial is kept.
            if r.below(24) < open { Call::Keep(at) } else { Call::Back(at) }
        }
    }
}

fn side(r: &mut Random) -> usize {
    match r.below(8) {
        0 => 2 + 2 * r.below(8),
        1 => r.of(&[16, 32, 64]),
        2 => r.of(&[18, 34, 66, 30, 62]),
        3 => r.of(&[1022, 1024, 512]),
        _ => 2 + 2 * r.below(48),
    }
}

impl Script {
    /// A random script of this many calls, the same for the same seed.
    pub fn random(seed: u64, count: usize) -> Script {
        let r = &mut Random::new(seed);
        let columns = side(r);
        // Few tiles are large both ways: their maps take the most time.
        let rows = if columns > 500 && !r.chance(5) { 2 + 2 * r.below(40) } else { side(r) };
        let last = if r.chance(50) { 7 } else { r.below(8) };
        let mut head = String::new();
        if r.chance(30) {
            head += &match r.below(3) {
                0 => format!("sink word {}\n", r.of(&[0, 1, 40, 200, 5000])),
                1 => format!("sink packed {}\n", r.of(&[0, 7, 8, 15, 16, 400, 20000])),
                _ => "sink word 100000\n".into(),
            };
        }
        if r.chance(20) {
            head += &format!(
                "log {} {} {}\n",
                r.of(&[0, 1, 20, 500]),
                r.of(&[0, 1, 20, 500]),
                r.of(&[0, 4, 300, 20000])
            );
        }
        let habits = Habits::new(r, columns, rows);
        let mut calls: Vec<Call> = Vec::with_capacity(count);
        let mut open: usize = 0;
        while calls.len() < count {
            let call = match calls.last() {
                Some(&before) if r.chance(habits.again) => before,
                _ => call(r, &habits, columns, rows, last, open),
            };
            match call {
                Call::Open => open = (open + 1).min(16),
                Call::Keep(None) => open = open.saturating_sub(1),
                _ => {}
            }
            calls.push(call);
        }
        Script { columns, rows, last, head, calls }
    }
}
