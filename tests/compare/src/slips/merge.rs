//! The merge of a stand-in, with its slips.

use super::stand_in::StandIn;
use super::Slip::*;
use oracle::points::{RECORD, STORE_LIMIT};
use oracle::Refusal;
use std::collections::HashMap;

type Records<'a> = Vec<&'a [u8]>;

impl StandIn {
    fn frame(&self, record: &[u8]) -> i32 {
        let frame = [record[10], record[11]];
        match self.slip {
            MergeSignedFrames => i16::from_be_bytes(frame) as i32,
            MergeLittleEndianFrames => u16::from_le_bytes(frame) as i32,
            _ => u16::from_be_bytes(frame) as i32,
        }
    }

    fn rises(&self, store: &[&[u8]]) -> bool {
        store.windows(2).all(|two| match self.slip {
            MergeEqualNeighboursTaken => self.frame(two[0]) <= self.frame(two[1]),
            _ => self.frame(two[0]) < self.frame(two[1]),
        })
    }

    /// Whether two records of one frame are taken as the same.
    fn agree(&self, record: &[u8], other: &[u8]) -> bool {
        let gap = |record: &[u8]| record[8..10] == [128, 0];
        record == other
            || self.slips(MergeFirstOfClash)
            || (self.slips(MergeGapYields) && (gap(record) || gap(other)))
            || (self.slips(MergeClashWithoutY) && record[..8] == other[..8])
    }

    /// The union in order, or a clash.
    fn union<'a>(&self, first: &Records<'a>, second: &Records<'a>) -> Result<Records<'a>, Refusal> {
        let mut union = first.clone();
        let frames: HashMap<i32, &[u8]> = first.iter().map(|record| (self.frame(record), *record)).collect();
        for record in second {
            match frames.get(&self.frame(record)) {
                Some(other) if !self.agree(record, other) => return Err(Refusal::Clash),
                Some(_) if !self.slips(MergeCommonTwice) => {}
                _ => union.push(record),
            }
        }
        if !self.slips(MergeSecondBehindFirst) {
            union.sort_by_key(|record| self.frame(record));
        }
        Ok(union)
    }

    pub fn merged(&self, first: &[u8], second: &[u8], out: &mut [u8]) -> Result<u64, Refusal> {
        let stores = [first, second];
        let wrong = |store: &&[u8]| store.len() % RECORD != 0 || store.len() > STORE_LIMIT;
        if stores.iter().any(wrong) || (self.slips(MergeEmptyRefused) && first.is_empty()) {
            return Err(Refusal::Length);
        }
        let [first, second] = stores.map(|store| store.chunks_exact(RECORD).collect::<Records>());
        let union = self.union(&first, &second);
        if self.slips(MergeClashBeforeOrder) {
            union.clone()?;
        }
        if !self.rises(&first) || !(self.rises(&second) || self.slips(MergeSecondOrderUnchecked)) {
            return Err(Refusal::Order);
        }
        let bytes = union?.concat();
        if self.slips(MergeShortBeforeUnion) && bytes.len() > out.len() {
            return Err(Refusal::Short);
        }
        let limit = if self.slips(MergeOneRecordOver) { STORE_LIMIT + RECORD } else { STORE_LIMIT };
        if bytes.len() > limit {
            return Err(Refusal::Length);
        }
        if bytes.len() > out.len() {
            if self.slips(MergeWritesWhatFits) {
                out.copy_from_slice(&bytes[..out.len()]);
            }
            return Err(Refusal::Short);
        }
        out[..bytes.len()].copy_from_slice(&bytes);
        if self.slips(MergeClearsTheRest) {
            out[bytes.len()..].fill(0);
        }
        Ok(if self.slips(MergeLengthInRecords) { bytes.len() / RECORD } else { bytes.len() } as u64)
    }
}
