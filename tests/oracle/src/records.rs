//! Job records of 72 bytes and answer records of 40.

use crate::boxes::Box8;
use crate::model::{check_scale, check_shape, check_unused, Model, Vector};
use crate::refusal::{refuse_if, Refusal};

pub const JOB: usize = 72;
pub const ANSWER: usize = 40;
/// The largest cost: 4,096 points of loss 16,777,215².
pub const COST_LIMIT: u64 = 1_152_921_367_167_897_600;

/// A job; `rows` is for fit, a search has its rows from its table.
#[derive(Clone, Copy, Debug, PartialEq, Eq)]
pub struct Job {
    pub model: Model,
    pub t: u64,
    pub budget: u32,
    pub rows: u32,
    pub domain: Box8,
    pub start: Vector,
}

/// An answer record's fields; kind, n, d and S as they stand there, in range or not.
#[derive(Clone, Copy, Debug, PartialEq, Eq)]
pub struct AnswerRecord {
    pub vector: Vector,
    pub c: u64,
    pub l: u64,
    pub count: u32,
    pub kind: u8,
    pub n: u8,
    pub d: u8,
    pub s: u8,
}

fn read_vector(bytes: &[u8]) -> Vector {
    std::array::from_fn(|k| i16::from_be_bytes([bytes[2 * k], bytes[2 * k + 1]]))
}

fn read_u32(bytes: &[u8]) -> u32 {
    u32::from_be_bytes(bytes[..4].try_into().unwrap())
}

fn read_u64(bytes: &[u8]) -> u64 {
    u64::from_be_bytes(bytes[..8].try_into().unwrap())
}

fn put_vector(bytes: &mut Vec<u8>, vector: &Vector) {
    for w in vector {
        bytes.extend(w.to_be_bytes());
    }
}

/// Reads n, d, S, p, ε, t, budget, r, low, high and start; every 72 bytes are some job.
pub fn read_job(bytes: &[u8; JOB]) -> Job {
    let [n, d, s, p] = [bytes[0], bytes[1], bytes[2], bytes[3]];
    Job {
        model: Model { n, d, s, p, epsilon: read_u32(&bytes[4..]) },
        t: read_u64(&bytes[8..]),
        budget: read_u32(&bytes[16..]),
        rows: read_u32(&bytes[20..]),
        domain: Box8 { low: read_vector(&bytes[24..]), high: read_vector(&bytes[40..]) },
        start: read_vector(&bytes[56..]),
    }
}

pub fn write_job(job: &Job) -> [u8; JOB] {
    let model = &job.model;
    let mut bytes = vec![model.n, model.d, model.s, model.p];
    bytes.extend(model.epsilon.to_be_bytes());
    bytes.extend(job.t.to_be_bytes());
    bytes.extend(job.budget.to_be_bytes());
    bytes.extend(job.rows.to_be_bytes());
    put_vector(&mut bytes, &job.domain.low);
    put_vector(&mut bytes, &job.domain.high);
    put_vector(&mut bytes, &job.start);
    bytes.try_into().unwrap()
}

/// Check 9, but for the length.
pub fn check_answer(answer: &AnswerRecord) -> Result<(), Refusal> {
    let out_of_range =
        !(1..=3).contains(&answer.kind) || check_shape(answer.n, answer.d).is_err() || check_scale(answer.s).is_err();
    refuse_if(out_of_range, Refusal::Answer)?;
    let unused = check_unused(&answer.vector, answer.n as usize * answer.d as usize).is_err();
    refuse_if(unused || answer.l > answer.c || answer.c > COST_LIMIT, Refusal::Answer)
}

/// Writes the record into the first 40 bytes of `out` and keeps the rest; makes checks 9 and 10.
pub fn write_answer(answer: &AnswerRecord, out: &mut [u8]) -> Result<(), Refusal> {
    check_answer(answer)?;
    refuse_if(out.len() < ANSWER, Refusal::Short)?;
    let mut bytes = Vec::new();
    put_vector(&mut bytes, &answer.vector);
    bytes.extend(answer.c.to_be_bytes());
    bytes.extend(answer.l.to_be_bytes());
    bytes.extend(answer.count.to_be_bytes());
    bytes.extend([answer.kind, answer.n, answer.d, answer.s]);
    out[..ANSWER].copy_from_slice(&bytes);
    Ok(())
}

/// The fields of 40 bytes, without checks.
pub fn answer_fields(bytes: &[u8]) -> AnswerRecord {
    AnswerRecord {
        vector: read_vector(bytes),
        c: read_u64(&bytes[16..]),
        l: read_u64(&bytes[24..]),
        count: read_u32(&bytes[32..]),
        kind: bytes[36],
        n: bytes[37],
        d: bytes[38],
        s: bytes[39],
    }
}

/// Reads an answer record; makes check 9.
pub fn read_answer(bytes: &[u8]) -> Result<AnswerRecord, Refusal> {
    refuse_if(bytes.len() != ANSWER, Refusal::Answer)?;
    let answer = answer_fields(bytes);
    check_answer(&answer)?;
    Ok(answer)
}

#[cfg(test)]
mod tests {
    use super::*;

    fn answer() -> AnswerRecord {
        let vector = [1, -2, 3, -4, 0, 0, 0, 0];
        AnswerRecord { vector, c: 9, l: 7, count: 0x0102_0304, kind: 2, n: 2, d: 2, s: 15 }
    }

    #[test]
    fn job_fields_stand_in_their_places() {
        let bytes: [u8; JOB] = std::array::from_fn(|k| k as u8);
        let job = read_job(&bytes);
        assert_eq!(job.model, Model { n: 0, d: 1, s: 2, p: 3, epsilon: 0x0405_0607 });
        assert_eq!(job.t, 0x0809_0A0B_0C0D_0E0F);
        assert_eq!((job.budget, job.rows), (0x1011_1213, 0x1415_1617));
        assert_eq!((job.domain.low[0], job.domain.high[0]), (0x1819, 0x2829));
        assert_eq!((job.start[0], job.start[7]), (0x3839, 0x4647));
        assert_eq!(write_job(&job), bytes);
    }

    #[test]
    fn answer_fields_stand_in_their_places() {
        let mut out = [0xEE; 42];
        assert_eq!(write_answer(&answer(), &mut out), Ok(()));
        assert_eq!(out[..8], [0, 1, 0xFF, 0xFE, 0, 3, 0xFF, 0xFC]);
        assert_eq!(out[8..16], [0; 8]);
        assert_eq!(out[16..32], [0, 0, 0, 0, 0, 0, 0, 9, 0, 0, 0, 0, 0, 0, 0, 7]);
        assert_eq!(out[32..], [1, 2, 3, 4, 2, 2, 2, 15, 0xEE, 0xEE]);
        assert_eq!(read_answer(&out[..40]), Ok(answer()));
    }

    #[test]
    fn refused_answers() {
        let wrong = |change: fn(&mut AnswerRecord)| {
            let mut changed = answer();
            change(&mut changed);
            assert_eq!(write_answer(&changed, &mut []), Err(Refusal::Answer), "{changed:?}");
        };
        wrong(|a| a.kind = 0);
        wrong(|a| a.kind = 4);
        wrong(|a| a.n = 0);
        wrong(|a| a.d = 5);
        wrong(|a| (a.n, a.d) = (3, 3));
        wrong(|a| a.s = 16);
        wrong(|a| a.vector[4] = 1);
        wrong(|a| a.l = 10);
        wrong(|a| a.c = COST_LIMIT + 1);
        assert_eq!(write_answer(&answer(), &mut [0; 39]), Err(Refusal::Short));
        let mut out = [0; 41];
        write_answer(&AnswerRecord { c: COST_LIMIT, l: COST_LIMIT, ..answer() }, &mut out).unwrap();
        assert_eq!(read_answer(&out), Err(Refusal::Answer));
        assert_eq!(read_answer(&out[..39]), Err(Refusal::Answer));
        assert!(read_answer(&out[..40]).is_ok());
    }
}
