//! The calls of a stand-in: the oracle's, but for the slip.

use super::Slip::{self, *};
use crate::calls::{refusal_code, Calls, Found, Jobs, Passed, Ranged, Slots, WRONG_LENGTH};
use oracle::boxes::check_box;
use oracle::bus::REGISTERS;
use oracle::coefficients::{coordinate_of, pattern};
use oracle::model::check_shape;
use oracle::points::{check_length, points_of, STORE_LIMIT};
use oracle::records::{answer_fields, check_answer, JOB};
use oracle::{AnswerRecord, Box8, Job, Model, Refusal, Vector};

pub struct StandIn {
    pub slip: Slip,
}

fn settle(result: Result<u64, Refusal>, value: &mut u64) -> u32 {
    match result {
        Ok(result) => {
            *value = result;
            0
        }
        Err(refusal) => refusal_code(refusal),
    }
}

/// The front of a buffer is written, as far as it goes.
pub fn put<T: Copy>(out: &mut [T], from: &[T]) {
    for (to, &element) in out.iter_mut().zip(from) {
        *to = element;
    }
}

/// A line of fit with eight coordinates, the unused ones as well.
fn with_all_coordinates(mut line: Vec<u8>) -> Vec<u8> {
    let used = 1 + line.iter().filter(|&&byte| byte == b',').count();
    line.splice(line.len() - 1.., [b",0".repeat(8 - used), b"\n".to_vec()].concat());
    line
}

/// Four elements, filled up by zeros.
fn four<T: Copy + Default>(from: &[T]) -> [T; 4] {
    std::array::from_fn(|k| from.get(k).copied().unwrap_or_default())
}

impl StandIn {
    /// Whether each buffer has its right length; with a slip every length is taken.
    pub fn takes(&self, lengths: &[(usize, usize)]) -> bool {
        self.slips(WrongLengthTaken) || lengths.iter().all(|(length, right)| length == right)
    }

    pub fn slips(&self, slip: Slip) -> bool {
        self.slip == slip
    }

    /// Eight coordinates, or with a slip any number of them, filled up by zeros.
    fn eight(&self, vector: &[i16]) -> Option<Vector> {
        if self.slips(WrongLengthTaken) {
            return Some(std::array::from_fn(|k| vector.get(k).copied().unwrap_or(0)));
        }
        vector.try_into().ok()
    }

    /// A box from sixteen coordinates.
    fn row(&self, corners: &[i16]) -> Option<Box8> {
        let half = corners.len() / 2;
        let domain = Box8 { low: self.eight(&corners[..half])?, high: self.eight(&corners[half..])? };
        Some(domain)
    }
}

impl Calls for StandIn {
    fn loss(&self, p: u8, epsilon: u32, e: i64, value: &mut u64) -> u32 {
        let p = if self.slips(SpoiledLossTaken) && p == 3 { 0 } else { p };
        let result = oracle::loss(p, epsilon, e).map(|loss| match self.slip {
            SquaresBeforeTheCut if p == 2 => (e.wrapping_mul(e) as u64).min((epsilon as u64).pow(2)),
            LeastI64 if e == i64::MIN => 0,
            EpsilonItselfIsOut if p == 0 => (e.unsigned_abs() >= epsilon as u64) as u64,
            _ => loss,
        });
        settle(result, value)
    }

    fn cost(&self, store: &[u8], model: &Model, vector: &[i16], value: &mut u64) -> u32 {
        let Some(vector) = self.eight(vector) else {
            return WRONG_LENGTH;
        };
        let store = &self.read(store, model.d);
        let checked = self.counted(store, oracle::cost(&self.checked(model, store), store, &vector));
        let code = settle(checked.map(|_| self.cost_of(model, &points_of(store), &vector)), value);
        let stray = code % 256 == 7;
        match self.slip {
            CostAtRefusal if code != 0 => *value = 0,
            StrayRecordAsValue if stray => *value = (code / 256) as u64,
            StrayWithoutRecord if stray => return 7,
            StrayFieldByField if stray => {
                let points = points_of(store);
                let first = |k: usize| points.iter().position(|point| point.x[k] != 0);
                let record = (model.d as usize..4).find_map(first).unwrap();
                return refusal_code(Refusal::Stray(record));
            }
            _ => {}
        }
        code
    }

    fn bound(&self, store: &[u8], model: &Model, corners: &[i16], value: &mut u64) -> u32 {
        let Some(domain) = self.row(corners) else {
            return WRONG_LENGTH;
        };
        let store = &self.read(store, model.d);
        let checked = self.counted(store, oracle::bound(&self.checked(model, store), store, &domain));
        settle(checked.map(|_| self.bound_of(model, &points_of(store), &domain)), value)
    }

    fn split(&self, n: u8, d: u8, corners: &[i16], halves: &mut [i16]) -> u32 {
        let Some(domain) = self.row(corners).filter(|_| halves.len() >= 32) else {
            return WRONG_LENGTH;
        };
        let result = match self.slip {
            OneVectorIsSplit => check_shape(n, d).and_then(|()| check_box(&domain, (n * d) as usize)),
            _ => oracle::split(n, d, &domain).map(|_| ()),
        };
        match result {
            Ok(()) => {
                let (left, right) = self.cut(&domain);
                halves[..32].copy_from_slice(&[left.low, left.high, right.low, right.high].concat());
                0
            }
            Err(refusal) => refusal_code(refusal),
        }
    }

    fn labels(&self, store: &[u8], model: &Model, vector: &[i16], labels: &mut [u8], value: &mut u64) -> u32 {
        let Some(vector) = self.eight(vector) else {
            return WRONG_LENGTH;
        };
        let store = &self.read(store, model.d);
        settle(self.put_labels(model, store, &vector, labels), value)
    }

    fn cost_by_beacon(&self, store: &[u8], model: &Model, vector: &[i16], sums: &mut [u64], value: &mut u64) -> u32 {
        let Some(vector) = self.eight(vector) else {
            return WRONG_LENGTH;
        };
        let store = &self.read(store, model.d);
        settle(self.put_sums(model, store, &vector, sums), value)
    }

    fn take_in(&self, store: &mut [u8], mark: usize, beacon: &[u8], value: &mut u64) -> u32 {
        let sound = check_length(beacon.len()).is_ok() && mark <= store.len();
        match self.slip {
            BeaconBeforeShort if sound && mark % 12 == 0 && beacon.len() > 236 => return 11,
            Beacon250 if beacon.len() == 240 => {
                // Taken in as two shorter ones.
                let first = oracle::take_in(store, mark, &beacon[..120]);
                let both = first.and_then(|half| oracle::take_in(store, half, &beacon[120..]));
                return settle(both.map(|mark| mark as u64), value);
            }
            MarkUnchecked if sound && beacon.len() <= 236 && mark + beacon.len() <= store.len() => {
                store[mark..mark + beacon.len()].copy_from_slice(beacon);
                *value = (mark + beacon.len()) as u64;
                return 0;
            }
            StorePastItsLimit if sound && mark % 12 == 0 && beacon.len() <= 236 => {
                if mark + beacon.len() <= store.len() && mark + beacon.len() > STORE_LIMIT {
                    *value = (mark + beacon.len()) as u64;
                    return 0;
                }
            }
            _ => {}
        }
        settle(oracle::take_in(store, mark, beacon).map(|mark| mark as u64), value)
    }

    fn merge(&self, first: &[u8], second: &[u8], out: &mut [u8], value: &mut u64) -> u32 {
        settle(self.merged(first, second, out), value)
    }

    fn search(
        &self,
        store: &[u8],
        job: &Job,
        corners: &[i16],
        start: &[i16],
        table: &mut [i16],
        bounds: &mut [u64],
        found: &mut Found,
    ) -> u32 {
        let (vector, numbers) = (found.vector.part(), found.numbers.part());
        if !self.takes(&[(corners.len(), 16), (start.len(), 8), (vector.len(), 8), (numbers.len(), 5)]) {
            return WRONG_LENGTH;
        }
        let (Some(domain), Some(start)) = (self.row(corners), self.eight(start)) else {
            return WRONG_LENGTH;
        };
        let job = &Job { domain, start, ..*job };
        let store = &self.read(store, job.model.d);
        match self.counted(store, self.check_search(job, store, table.len(), bounds.len())) {
            Ok(points) => {
                let told = self.run(job, &points, table, bounds);
                put(vector, &told.vector);
                put(numbers, &told.numbers);
                found.value = told.kind as u64;
                0
            }
            Err(refusal) => refusal_code(refusal),
        }
    }

    fn windows(
        &self,
        store: &[u8],
        job: &Job,
        corners: &[i16],
        start: &[i16],
        window: [usize; 2],
        lent: &mut Passed,
    ) -> u32 {
        if !self.takes(&[(corners.len(), 16), (start.len(), 8)]) {
            return WRONG_LENGTH;
        }
        let (Some(domain), Some(start)) = (self.row(corners), self.eight(start)) else {
            return WRONG_LENGTH;
        };
        let passed = self.passed(&Job { domain, start, ..*job }, store, window, lent);
        settle(passed, &mut lent.value)
    }

    fn boards(&self, jobs: &Jobs, table: &mut [i16], bounds: &mut [u64], slots: &mut Slots) -> u32 {
        self.boards_of(jobs, table, bounds, slots)
    }

    fn ranges(
        &self,
        store: &[u8],
        job: &Job,
        ceiling: u64,
        corners: &[i16],
        start: &[i16],
        table: &mut [i16],
        ranged: &mut Ranged,
    ) -> u32 {
        let (patterns, cases, numbers) = (ranged.patterns.part(), ranged.cases.part(), ranged.numbers.part());
        let lent = [(patterns.len(), 16), (cases.len(), 8), (numbers.len(), 3)];
        if !self.takes(&[(corners.len(), 16), (start.len(), 8)]) || !self.takes(&lent) {
            return WRONG_LENGTH;
        }
        let (Some(domain), Some(start)) = (self.row(corners), self.eight(start)) else {
            return WRONG_LENGTH;
        };
        let job = &Job { domain, start, ..*job };
        let store = &self.read(store, job.model.d);
        match self.counted(store, self.check_ranges(job, store, table.len())) {
            Ok(points) => {
                let told = self.find_ranges(job, &points, ceiling, table);
                put(patterns, &told.patterns);
                put(cases, &told.cases);
                put(numbers, &told.numbers);
                ranged.value = told.kind as u64;
                0
            }
            Err(refusal) => refusal_code(refusal),
        }
    }

    fn peel(
        &self,
        store: &[u8],
        job: &Job,
        corners: &[i16],
        start: &[i16],
        limit: u8,
        table: &mut [i16],
        bounds: &mut [u64],
        labels: &mut [u8],
        found: &mut Found,
    ) -> u32 {
        let (vectors, numbers) = (found.vector.part(), found.numbers.part());
        if !self.takes(&[(corners.len(), 16), (start.len(), 8), (vectors.len(), 32), (numbers.len(), 24)]) {
            return WRONG_LENGTH;
        }
        let (Some(domain), Some(start)) = (self.row(corners), self.eight(start)) else {
            return WRONG_LENGTH;
        };
        match self.peels(&Job { domain, start, ..*job }, store, limit, table, bounds, labels) {
            Ok(told) => {
                let slots = if self.slips(PeelSlotsKept) { told.rounds as usize } else { 4 };
                put(vectors, &told.vectors[..8 * slots]);
                put(numbers, &told.numbers[..6 * slots]);
                found.value = told.rounds;
                0
            }
            Err(refusal) => refusal_code(refusal),
        }
    }

    fn read_job(&self, bytes: &[u8], numbers: &mut [u64], corners: &mut [i16], start: &mut [i16]) -> u32 {
        if !self.takes(&[(numbers.len(), 8), (corners.len(), 16), (start.len(), 8)]) {
            return WRONG_LENGTH;
        }
        let Some(record) = bytes.first_chunk() else {
            return refusal_code(Refusal::Length);
        };
        if self.slips(LongJobRefused) && bytes.len() > 72 {
            return refusal_code(Refusal::Length);
        }
        let mut job = oracle::read_job(record);
        match self.slip {
            JobFieldsSwapped => (job.budget, job.rows) = (job.rows, job.budget),
            JobLittleEndian => job.t = job.t.swap_bytes(),
            _ => {}
        }
        let Model { n, d, s, p, epsilon } = job.model;
        let rest = [epsilon as u64, job.t, job.budget as u64, job.rows as u64];
        put(numbers, &[[n, d, s, p].map(u64::from), rest].concat());
        put(corners, &[job.domain.low, job.domain.high].concat());
        put(start, &job.start);
        0
    }

    fn write_job(&self, job: &Job, corners: &[i16], start: &[i16], bytes: &mut [u8]) -> u32 {
        if !self.takes(&[(corners.len(), 16), (start.len(), 8)]) {
            return WRONG_LENGTH;
        }
        if bytes.len() < 72 {
            return refusal_code(Refusal::Short);
        }
        let mut taken = *job;
        if self.slips(JobFieldsSwapped) {
            (taken.budget, taken.rows) = (job.rows, job.budget);
        }
        bytes[..72].copy_from_slice(&oracle::write_job(&taken));
        if self.slips(JobClearsTheRest) {
            bytes[72..].fill(0);
        }
        0
    }

    fn read_answer(&self, bytes: &[u8], vector: &mut [i16], numbers: &mut [u64]) -> u32 {
        if !self.takes(&[(vector.len(), 8), (numbers.len(), 7)]) {
            return WRONG_LENGTH;
        }
        let read = match oracle::read_answer(bytes) {
            Err(_) if self.slips(AnswerUnusedKept) && bytes.len() == 40 => {
                let read = answer_fields(bytes);
                check_answer(&AnswerRecord { vector: [0; 8], ..read }).map(|()| read)
            }
            read => read,
        };
        match read {
            Ok(AnswerRecord { vector: found, c, l, count, kind, n, d, s }) => {
                put(vector, &found);
                put(numbers, &[&[c, l, count as u64][..], &[kind, n, d, s].map(u64::from)].concat());
                0
            }
            Err(refusal) => refusal_code(refusal),
        }
    }

    fn write_answer(&self, answer: &AnswerRecord, vector: &[i16], bytes: &mut [u8]) -> u32 {
        if !self.takes(&[(vector.len(), 8)]) {
            return WRONG_LENGTH;
        }
        if self.slips(AnswerShortBeforeCheck) && bytes.len() < 40 {
            return 10;
        }
        let mut taken = *answer;
        match self.slip {
            AnswerLimitIsPowerOfTwo if answer.c <= 1 << 60 && answer.l <= answer.c => (taken.c, taken.l) = (0, 0),
            AnswerLOverC => taken.l = 0,
            _ => {}
        }
        match oracle::write_answer(&taken, bytes) {
            Ok(()) => {
                bytes[16..24].copy_from_slice(&answer.c.to_be_bytes());
                bytes[24..32].copy_from_slice(&answer.l.to_be_bytes());
                if self.slips(AnswerLittleEndian) {
                    bytes[32..36].reverse();
                }
                0
            }
            Err(refusal) => refusal_code(refusal),
        }
    }

    fn write_line(&self, d: u8, s: u8, coordinates: &[i16], patterns: &mut [u32]) -> u32 {
        if !self.takes(&[(coordinates.len(), 4), (patterns.len(), 4)]) {
            return WRONG_LENGTH;
        }
        let mut taken = four(coordinates);
        if self.slips(UnusedCoordinateWritten) {
            taken[d.min(4) as usize..].fill(0);
        }
        match oracle::write_line(d, s, &taken) {
            Ok(written) => {
                put(patterns, &written);
                if self.slips(OneWOff) && s == 11 && taken[0] == -12345 {
                    patterns[0] += 1;
                }
                0
            }
            Err(refusal) => refusal_code(refusal),
        }
    }

    fn read_line(&self, d: u8, s: u8, patterns: &[u32], coordinates: &mut [i16]) -> u32 {
        if !self.takes(&[(patterns.len(), 4), (coordinates.len(), 4)]) {
            return WRONG_LENGTH;
        }
        let mut taken: [u32; 4] = four(patterns);
        for (k, bits) in taken.iter_mut().enumerate() {
            match self.slip {
                NegativeZeroRead if *bits == 0x8000_0000 => *bits = 0,
                OffGridRounded if coordinate_of(*bits, s.min(15)).is_none() => *bits &= !1,
                UnusedPatternRead if k >= d as usize => *bits = 0,
                LastWUnread if *bits == pattern(-32768, s.min(15)) => *bits = 1,
                OneWOff if s == 11 && *bits == pattern(-12345, s) => *bits = 1,
                _ => {}
            }
        }
        match oracle::read_line(d, s, &taken) {
            Ok(read) => {
                put(coordinates, &read);
                0
            }
            Err(refusal) => refusal_code(refusal),
        }
    }

    fn reset(&self, registers: &mut [u8]) -> u32 {
        self.reset_registers(registers)
    }

    fn read_register(&self, registers: &[u8], offset: usize, value: &mut u64) -> u32 {
        if registers.len() != REGISTERS {
            return WRONG_LENGTH;
        }
        *value = self.register(registers, offset) as u64;
        0
    }

    fn write_register(
        &self,
        registers: &mut [u8],
        offset: usize,
        value: u8,
        store: &[u8],
        table: &mut [i16],
        bounds: &mut [u64],
    ) -> u32 {
        self.set_register(registers, offset, value, store, table, bounds)
    }

    fn bus(&self, input: &[u8]) -> Vec<u8> {
        self.exchange(input)
    }

    fn fit(&self, input: &[u8]) -> Vec<u8> {
        let mut line = match input.split_first_chunk::<JOB>() {
            Some((record, store)) => {
                let mut job = oracle::read_job(record);
                let store = self.read(store, job.model.d);
                job.model = self.checked(&job.model, &store);
                oracle::fit(&[&oracle::write_job(&job)[..], &store].concat())
            }
            _ => oracle::fit(input),
        }
        .into_bytes();
        match self.slip {
            FitWithoutLineEnd => drop(line.pop()),
            FitWithRecord if line.starts_with(b"refused 7") => line = b"refused 7 0\n".to_vec(),
            FitAllCoordinates if !line.starts_with(b"refused") => line = with_all_coordinates(line),
            _ => {}
        }
        line
    }
}

#[test]
fn all_coordinates_are_eight() {
    assert_eq!(with_all_coordinates(b"w=-2,3\n".to_vec()), b"w=-2,3,0,0,0,0,0,0\n");
    assert_eq!(with_all_coordinates(b"w=1,2,3,4,5,6,7,8\n".to_vec()), b"w=1,2,3,4,5,6,7,8\n");
}
