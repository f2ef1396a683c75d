//! A tile on rav1e's side: its functions called as its encoder calls them.

use crate::Entry;
use crate::calls::Call;
use crate::context::*;
use crate::ec::Recorder;
use crate::partition::BlockSize::{self, *};
use crate::partition::MvSubpelPrecision::{self, *};
use crate::partition::PartitionType::{self, *};
use std::mem::transmute;

/// The words of the tables, in the order of the stage's layout.
pub type Words = [u16; 430];

const SIZES: [BlockSize; 22] = [
    BLOCK_4X4, BLOCK_4X8, BLOCK_8X4, BLOCK_8X8, BLOCK_8X16, BLOCK_16X8, BLOCK_16X16, BLOCK_16X32, BLOCK_32X16,
    BLOCK_32X32, BLOCK_32X64, BLOCK_64X32, BLOCK_64X64, BLOCK_64X128, BLOCK_128X64, BLOCK_128X128, BLOCK_4X16,
    BLOCK_16X4, BLOCK_8X32, BLOCK_32X8, BLOCK_16X64, BLOCK_64X16,
];

const PARTITIONS: [PartitionType; 10] = [
    PARTITION_NONE, PARTITION_HORZ, PARTITION_VERT, PARTITION_SPLIT, PARTITION_HORZ_A, PARTITION_HORZ_B,
    PARTITION_VERT_A, PARTITION_VERT_B, PARTITION_HORZ_4, PARTITION_VERT_4,
];

const PRECISIONS: [MvSubpelPrecision; 3] = [MV_SUBPEL_NONE, MV_SUBPEL_LOW_PRECISION, MV_SUBPEL_HIGH_PRECISION];

/// The words at the start: value i of a table of N symbols is 32768 - floor(32768 × (i + 1) / N), counters and fillers
/// are 0.
pub fn start_words() -> Words {
    // How many tables of how many symbols each; the fillers stand as tables of one symbol, which have no values.
    let head = [(3, 2), (4, 4), (1, 8), (3, 8), (4, 8), (12, 10), (6, 16), (1, 4), (12, 1)];
    let component = [(1, 2), (1, 2), (1, 2), (1, 2), (10, 2), (2, 4), (1, 4), (1, 11), (5, 1)];
    let mut words = Vec::new();
    for (count, n) in head.into_iter().chain(component).chain(component) {
        for _ in 0..count {
            words.extend((1..n).map(|i| (32768 - 32768 * i / n) as u16));
            words.push(0);
        }
    }
    words.try_into().expect("430 words")
}

/// The tables of these words.
pub fn tables(words: Words) -> CDFContext {
    // SAFETY: all its fields are arrays of `u16`, it is `repr(C)`, and it has the size of 430 of them.
    unsafe { transmute::<Words, CDFContext>(words) }
}

/// The words of these tables.
pub fn words(tables: &CDFContext) -> Words {
    // SAFETY: as above.
    unsafe { transmute::<CDFContext, Words>(*tables) }
}

/// What an open trial goes back to.
struct Moment {
    log: CDFContextCheckpoint,
    entries: usize,
    above: [u8; 512],
    left: [u8; 8],
    cells: Vec<Block>,
}

/// All that is compared at the end.
#[derive(PartialEq)]
pub struct State {
    pub words: Words,
    pub above: [u8; 512],
    pub left: [u8; 8],
    pub cells: Vec<Block>,
}

pub struct Tile<'a> {
    pub writer: ContextWriter<'a>,
    pub record: Recorder,
    last: u8,
    trials: Vec<Moment>,
}

impl<'a> Tile<'a> {
    pub fn new(writer: ContextWriter<'a>, last: usize) -> Self {
        Tile { writer, record: Recorder::default(), last: last as u8, trials: Vec::new() }
    }

    /// Begins anew, with nothing in the log and the record.
    pub fn restart(&mut self) {
        *self.writer.fc = tables(start_words());
        self.writer.fc_log.clear();
        self.writer.bc.above_partition_context = [0; 512];
        self.writer.bc.left_partition_context = [0; 8];
        for y in 0..self.writer.bc.blocks.rows() {
            self.writer.bc.blocks[y].fill(Block::default());
        }
        self.record.entries.clear();
    }

    fn cells(&self) -> Vec<Block> {
        let blocks = &self.writer.bc.blocks;
        (0..blocks.rows()).flat_map(|y| blocks[y].iter().copied()).collect()
    }

    /// Makes a call that was accepted, and answers the segment that was set, for a segment.
    #[inline(always)]
    pub fn call(&mut self, call: Call) -> Option<u8> {
        let Tile { writer, record, last, .. } = self;
        let at = |x, y| TileBlockOffset(BlockOffset { x, y });
        match call {
            Call::Partition { x, y, size, partition } => {
                writer.write_partition(record, at(x, y), PARTITIONS[partition], SIZES[size]);
            }
            Call::Skip { x, y, size, skip } => {
                writer.write_skip(record, at(x, y), skip);
                writer.bc.blocks.set_skip(at(x, y), SIZES[size], skip);
            }
            Call::Segment { x, y, size, id } => {
                if let Some(id) = id {
                    writer.bc.blocks.set_segmentation_idx(at(x, y), SIZES[size], id as u8);
                }
                writer.write_segmentation(record, at(x, y), SIZES[size], id.is_none(), *last);
                return Some(writer.bc.blocks[at(x, y)].segmentation_idx);
            }
            Call::Alphas { u, v } => writer.write_cfl_alphas(record, CFLParams::from_alpha(u as i16, v as i16)),
            Call::Vector { row, col, precision } => writer.write_vector(record, row, col, PRECISIONS[precision]),
            Call::Context { x, y, size, subsize } => {
                writer.bc.update_partition_context(at(x, y), SIZES[subsize], SIZES[size]);
            }
            Call::Row => writer.bc.start_row(),
            Call::Open => self.open(),
            Call::Back(_) => self.back(),
            Call::Keep(_) => {
                self.trials.pop();
            }
        }
        None
    }

    fn open(&mut self) {
        self.trials.push(Moment {
            log: self.writer.log_mark(),
            entries: self.record.entries.len(),
            above: self.writer.bc.above_partition_context,
            left: self.writer.bc.left_partition_context,
            cells: self.cells(),
        });
    }

    /// Rolls the tables back as rav1e does, and restores what its rollback leaves: the map, and contexts of other
    /// superblocks.
    fn back(&mut self) {
        let moment = self.trials.last().expect("a trial is open");
        self.writer.log_back(&moment.log);
        self.record.entries.truncate(moment.entries);
        self.writer.bc.above_partition_context = moment.above;
        self.writer.bc.left_partition_context = moment.left;
        let columns = self.writer.bc.blocks.cols();
        for (y, row) in moment.cells.chunks(columns).enumerate() {
            self.writer.bc.blocks[y].copy_from_slice(row);
        }
    }

    pub fn entries(&self) -> &[Entry] {
        &self.record.entries
    }

    pub fn state(&self) -> State {
        State {
            words: words(self.writer.fc),
            above: self.writer.bc.above_partition_context,
            left: self.writer.bc.left_partition_context,
            cells: self.cells(),
        }
    }
}
