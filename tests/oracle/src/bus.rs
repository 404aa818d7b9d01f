//! The fitter on the data bus: what its registers read after any accesses, by what each register means.

use crate::points::RECORD;
use crate::records::{read_job, write_answer, AnswerRecord, Job, ANSWER, JOB};
use crate::refusal::{refuse_if, Refusal};
use crate::search::{check_job, search, Answer};

/// The register bytes.
pub const REGISTERS: usize = 136;
/// The rows of the table that the program bus has.
pub const ROWS: u32 = 2_048;

/// The board's state.
#[derive(Clone, Debug, PartialEq, Eq)]
pub struct Bus {
    pub done: bool,
    pub refused: bool,
    pub pending: bool,
    pub enabled: bool,
    /// The last run's refusal number, 0 if it was done.
    pub refusal: u8,
    pub answer: [u8; ANSWER],
    pub job: [u8; JOB],
}

/// The search of a run: checks 1 to 7, then 8, which asks also that the lent table's rows are the job's r, then 14.
pub fn run(job: &Job, store: &[u8], numbers: usize, entries: usize) -> Result<Answer, Refusal> {
    check_job(job, store)?;
    refuse_if(numbers / 16 != job.rows as usize, Refusal::Table)?;
    search(job, store, numbers, entries)
}

/// The answer record of a search.
pub fn answer_record(job: &Job, answer: &Answer) -> [u8; ANSWER] {
    let Answer { vector, c, l, count, .. } = *answer;
    let (n, d, s) = (job.model.n, job.model.d, job.model.s);
    let mut bytes = [0; ANSWER];
    write_answer(&AnswerRecord { vector, c, l, count, kind: answer.kind as u8, n, d, s }, &mut bytes).unwrap();
    bytes
}

impl Bus {
    /// All bytes are 0 after reset.
    pub fn reset() -> Bus {
        Bus {
            done: false,
            refused: false,
            pending: false,
            enabled: false,
            refusal: 0,
            answer: [0; ANSWER],
            job: [0; JOB],
        }
    }

    pub fn read(&self, offset: usize) -> u8 {
        match offset {
            1 => self.done as u8 + 2 * self.refused as u8 + 4 * self.pending as u8,
            2 => self.enabled as u8,
            3 => self.refusal,
            8..=47 => self.answer[offset - 8],
            64..=135 => self.job[offset - 64],
            _ => 0,
        }
    }

    /// A write, with a table of so many numbers and a list of so many entries; a run answers what its search came to.
    pub fn write(
        &mut self,
        offset: usize,
        value: u8,
        store: &[u8],
        numbers: usize,
        entries: usize,
    ) -> Option<Result<Answer, Refusal>> {
        match (offset, value) {
            (0, 2) => return Some(self.run(store, numbers, entries)),
            (0, 3) => (self.done, self.refused, self.pending) = (false, false, false),
            (2, _) => self.enabled = value & 1 == 1,
            (64..=135, _) => self.job[offset - 64] = value,
            _ => {}
        }
        None
    }

    fn run(&mut self, store: &[u8], numbers: usize, entries: usize) -> Result<Answer, Refusal> {
        let job = read_job(&self.job);
        let found = run(&job, store, numbers, entries);
        (self.done, self.refused) = (found.is_ok(), found.is_err());
        self.pending |= self.enabled;
        self.refusal = found.as_ref().map_or_else(|refusal| refusal.number(), |_| 0);
        self.answer = found.as_ref().map_or([0; ANSWER], |answer| answer_record(&job, answer));
        found
    }

    /// The job's r, as it stands.
    pub fn rows(&self) -> u32 {
        read_job(&self.job).rows
    }
}

/// What the program bus writes: a byte for each read of its input, which is the number of a store's records in two
/// bytes, the store, and accesses of four bytes: 0 or 1 for a read or a write, the offset, the value, and one more.
pub fn exchange(input: &[u8]) -> Vec<u8> {
    let Some((records, rest)) = input.split_first_chunk::<2>() else {
        return vec![];
    };
    let size = u16::from_be_bytes(*records) as usize * RECORD;
    if rest.len() < size {
        return vec![];
    }
    let (store, accesses) = rest.split_at(size);
    let mut bus = Bus::reset();
    let mut replies = vec![];
    for access in accesses.chunks_exact(4) {
        let offset = access[1] as usize;
        match access[0] {
            0 => replies.push(bus.read(offset)),
            1 => {
                let rows = bus.rows().min(ROWS) as usize;
                bus.write(offset, access[2], store, 16 * rows, ROWS as usize);
            }
            _ => {}
        }
    }
    replies
}

#[cfg(test)]
mod tests {
    use super::*;

    /// Fit G of the paper by the registers: its record byte by byte, the search, the answer.
    #[test]
    fn fit_g_by_the_registers() {
        let store = [
            [0, 1, 0, 0, 0, 0, 0, 0, 0, 2, 0, 0],
            [0, 1, 0, 0, 0, 0, 0, 0, 0, 2, 0, 1],
            [0, 1, 0, 0, 0, 0, 0, 0, 0, 9, 0, 2],
        ]
        .concat();
        let mut bus = Bus::reset();
        for (offset, value) in [(64, 1), (65, 1), (67, 1), (71, 2), (83, 10), (87, 4), (105, 3), (2, 255)] {
            assert_eq!(bus.write(offset, value, &store, 0, 0), None);
        }
        bus.write(0, 2, &store, 64, 4).unwrap().unwrap();
        assert_eq!([1, 2, 3].map(|offset| bus.read(offset)), [5, 1, 0]);
        assert_eq!(bus.read(9), 2);
        bus.write(2, 0, &store, 0, 0);
        assert_eq!(bus.write(0, 2, &store, 80, 5), Some(Err(Refusal::Table)));
        assert_eq!([1, 2, 3, 9].map(|offset| bus.read(offset)), [6, 0, 8, 0]);
        bus.write(0, 3, &store, 0, 0);
        assert_eq!([1, 2, 3, 65].map(|offset| bus.read(offset)), [0, 0, 8, 1]);
    }
}
