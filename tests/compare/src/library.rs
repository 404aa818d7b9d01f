//! The product: its library, by the declarations of tests/bindings, and its programs fit and bus.

use bindings::*;
use compare::calls::{Calls, Found, Jobs, Passed, Ranged, Slots};
use oracle::{AnswerRecord, Job, Model};
use std::io::{Read, Write};
use std::process::{Command, Stdio};

/// The product, with the paths of its programs.
pub struct Library {
    pub fit: String,
    pub bus: String,
}

/// What a program writes for this input.
fn output_of(path: &str, input: &[u8]) -> Vec<u8> {
    let started = Command::new(path).stdin(Stdio::piped()).stdout(Stdio::piped()).spawn();
    let mut program = started.unwrap_or_else(|error| panic!("{path}: {error}"));
    // It may stop reading where its input is too long.
    let _ = program.stdin.take().unwrap().write_all(input);
    let mut output = Vec::new();
    program.stdout.take().unwrap().read_to_end(&mut output).unwrap();
    let status = program.wait().unwrap();
    if !status.success() {
        output.extend(format!("{path} ended with {status}").bytes());
    }
    output
}

impl Calls for Library {
    fn loss(&self, p: u8, epsilon: u32, e: i64, value: &mut u64) -> u32 {
        unsafe { vengutari_loss(p, epsilon, e, value) }
    }

    fn cost(&self, store: &[u8], model: &Model, vector: &[i16], value: &mut u64) -> u32 {
        let Model { n, d, s, p, epsilon } = *model;
        unsafe {
            vengutari_cost(store.as_ptr(), store.len(), n, d, s, p, epsilon, vector.as_ptr(), vector.len(), value)
        }
    }

    fn bound(&self, store: &[u8], model: &Model, corners: &[i16], value: &mut u64) -> u32 {
        let Model { n, d, s, p, epsilon } = *model;
        unsafe {
            vengutari_bound(store.as_ptr(), store.len(), n, d, s, p, epsilon, corners.as_ptr(), corners.len(), value)
        }
    }

    fn split(&self, n: u8, d: u8, corners: &[i16], halves: &mut [i16]) -> u32 {
        unsafe { vengutari_split(n, d, corners.as_ptr(), corners.len(), halves.as_mut_ptr(), halves.len()) }
    }

    fn labels(&self, store: &[u8], model: &Model, vector: &[i16], labels: &mut [u8], value: &mut u64) -> u32 {
        let Model { n, d, s, p, epsilon } = *model;
        unsafe {
            vengutari_labels(
                store.as_ptr(),
                store.len(),
                n,
                d,
                s,
                p,
                epsilon,
                vector.as_ptr(),
                vector.len(),
                labels.as_mut_ptr(),
                labels.len(),
                value,
            )
        }
    }

    fn cost_by_beacon(&self, store: &[u8], model: &Model, vector: &[i16], sums: &mut [u64], value: &mut u64) -> u32 {
        let Model { n, d, s, p, epsilon } = *model;
        unsafe {
            vengutari_cost_by_beacon(
                store.as_ptr(),
                store.len(),
                n,
                d,
                s,
                p,
                epsilon,
                vector.as_ptr(),
                vector.len(),
                sums.as_mut_ptr(),
                sums.len(),
                value,
            )
        }
    }

    fn take_in(&self, store: &mut [u8], mark: usize, beacon: &[u8], value: &mut u64) -> u32 {
        unsafe { vengutari_take_in(store.as_mut_ptr(), store.len(), mark, beacon.as_ptr(), beacon.len(), value) }
    }

    fn merge(&self, first: &[u8], second: &[u8], out: &mut [u8], value: &mut u64) -> u32 {
        unsafe {
            vengutari_merge(
                first.as_ptr(),
                first.len(),
                second.as_ptr(),
                second.len(),
                out.as_mut_ptr(),
                out.len(),
                value,
            )
        }
    }

    fn search(
        &self,
        store: &[u8],
        job: &Job,
        corners: &[i16],
        start: &[i16],
        table: &mut [i16],
        bounds: &mut [u64],
        found: &mut Found,
    ) -> u32 {
        let Model { n, d, s, p, epsilon } = job.model;
        let (vector, numbers) = (found.vector.part(), found.numbers.part());
        unsafe {
            vengutari_search(
                store.as_ptr(),
                store.len(),
                n,
                d,
                s,
                p,
                epsilon,
                job.t,
                job.budget,
                corners.as_ptr(),
                corners.len(),
                start.as_ptr(),
                start.len(),
                table.as_mut_ptr(),
                table.len(),
                bounds.as_mut_ptr(),
                bounds.len(),
                vector.as_mut_ptr(),
                vector.len(),
                numbers.as_mut_ptr(),
                numbers.len(),
                &mut found.value,
            )
        }
    }

    fn windows(
        &self,
        store: &[u8],
        job: &Job,
        corners: &[i16],
        start: &[i16],
        [k, h]: [usize; 2],
        lent: &mut Passed,
    ) -> u32 {
        let Model { n, d, s, p, epsilon } = job.model;
        let (table, bounds, out) = (lent.table.part(), lent.bounds.part(), lent.out.part());
        unsafe {
            vengutari_windows(
                store.as_ptr(),
                store.len(),
                n,
                d,
                s,
                p,
                epsilon,
                job.t,
                job.budget,
                corners.as_ptr(),
                corners.len(),
                start.as_ptr(),
                start.len(),
                k,
                h,
                table.as_mut_ptr(),
                table.len(),
                bounds.as_mut_ptr(),
                bounds.len(),
                out.as_mut_ptr(),
                out.len(),
                &mut lent.value,
            )
        }
    }

    fn boards(&self, jobs: &Jobs, table: &mut [i16], bounds: &mut [u64], slots: &mut Slots) -> u32 {
        let (codes, budgets) = (slots.codes.part(), slots.budgets.part());
        let (vectors, numbers) = (slots.vectors.part(), slots.numbers.part());
        unsafe {
            vengutari_boards(
                jobs.count,
                jobs.total,
                jobs.records.as_ptr(),
                jobs.records.len(),
                jobs.stores.as_ptr(),
                jobs.stores.len(),
                jobs.lengths.as_ptr(),
                jobs.lengths.len(),
                table.as_mut_ptr(),
                table.len(),
                bounds.as_mut_ptr(),
                bounds.len(),
                codes.as_mut_ptr(),
                codes.len(),
                budgets.as_mut_ptr(),
                budgets.len(),
                vectors.as_mut_ptr(),
                vectors.len(),
                numbers.as_mut_ptr(),
                numbers.len(),
            )
        }
    }

    fn ranges(
        &self,
        store: &[u8],
        job: &Job,
        ceiling: u64,
        corners: &[i16],
        start: &[i16],
        table: &mut [i16],
        ranged: &mut Ranged,
    ) -> u32 {
        let Model { n, d, s, p, epsilon } = job.model;
        let (patterns, cases, numbers) = (ranged.patterns.part(), ranged.cases.part(), ranged.numbers.part());
        unsafe {
            vengutari_ranges(
                store.as_ptr(),
                store.len(),
                n,
                d,
                s,
                p,
                epsilon,
                job.budget,
                ceiling,
                corners.as_ptr(),
                corners.len(),
                start.as_ptr(),
                start.len(),
                table.as_mut_ptr(),
                table.len(),
                patterns.as_mut_ptr(),
                patterns.len(),
                cases.as_mut_ptr(),
                cases.len(),
                numbers.as_mut_ptr(),
                numbers.len(),
                &mut ranged.value,
            )
        }
    }

    fn peel(
        &self,
        store: &[u8],
        job: &Job,
        corners: &[i16],
        start: &[i16],
        limit: u8,
        table: &mut [i16],
        bounds: &mut [u64],
        labels: &mut [u8],
        found: &mut Found,
    ) -> u32 {
        let Model { n, d, s, p, epsilon } = job.model;
        let (vectors, numbers) = (found.vector.part(), found.numbers.part());
        unsafe {
            vengutari_peel(
                store.as_ptr(),
                store.len(),
                n,
                d,
                s,
                p,
                epsilon,
                job.t,
                job.budget,
                corners.as_ptr(),
                corners.len(),
                start.as_ptr(),
                start.len(),
                limit,
                table.as_mut_ptr(),
                table.len(),
                bounds.as_mut_ptr(),
                bounds.len(),
                labels.as_mut_ptr(),
                labels.len(),
                vectors.as_mut_ptr(),
                vectors.len(),
                numbers.as_mut_ptr(),
                numbers.len(),
                &mut found.value,
            )
        }
    }

    fn read_job(&self, bytes: &[u8], numbers: &mut [u64], corners: &mut [i16], start: &mut [i16]) -> u32 {
        unsafe {
            vengutari_read_job(
                bytes.as_ptr(),
                bytes.len(),
                numbers.as_mut_ptr(),
                numbers.len(),
                corners.as_mut_ptr(),
                corners.len(),
                start.as_mut_ptr(),
                start.len(),
            )
        }
    }

    fn write_job(&self, job: &Job, corners: &[i16], start: &[i16], bytes: &mut [u8]) -> u32 {
        let Model { n, d, s, p, epsilon } = job.model;
        unsafe {
            vengutari_write_job(
                n,
                d,
                s,
                p,
                epsilon,
                job.t,
                job.budget,
                job.rows,
                corners.as_ptr(),
                corners.len(),
                start.as_ptr(),
                start.len(),
                bytes.as_mut_ptr(),
                bytes.len(),
            )
        }
    }

    fn read_answer(&self, bytes: &[u8], vector: &mut [i16], numbers: &mut [u64]) -> u32 {
        unsafe {
            vengutari_read_answer(
                bytes.as_ptr(),
                bytes.len(),
                vector.as_mut_ptr(),
                vector.len(),
                numbers.as_mut_ptr(),
                numbers.len(),
            )
        }
    }

    fn write_answer(&self, answer: &AnswerRecord, vector: &[i16], bytes: &mut [u8]) -> u32 {
        let AnswerRecord { c, l, count, kind, n, d, s, .. } = *answer;
        unsafe {
            vengutari_write_answer(
                vector.as_ptr(),
                vector.len(),
                c,
                l,
                count,
                kind,
                n,
                d,
                s,
                bytes.as_mut_ptr(),
                bytes.len(),
            )
        }
    }

    fn write_line(&self, d: u8, s: u8, coordinates: &[i16], patterns: &mut [u32]) -> u32 {
        unsafe {
            vengutari_write_line(d, s, coordinates.as_ptr(), coordinates.len(), patterns.as_mut_ptr(), patterns.len())
        }
    }

    fn read_line(&self, d: u8, s: u8, patterns: &[u32], coordinates: &mut [i16]) -> u32 {
        unsafe {
            vengutari_read_line(d, s, patterns.as_ptr(), patterns.len(), coordinates.as_mut_ptr(), coordinates.len())
        }
    }

    fn reset(&self, registers: &mut [u8]) -> u32 {
        unsafe { vengutari_reset(registers.as_mut_ptr(), registers.len()) }
    }

    fn read_register(&self, registers: &[u8], offset: usize, value: &mut u64) -> u32 {
        unsafe { vengutari_read_register(registers.as_ptr(), registers.len(), offset, value) }
    }

    fn write_register(
        &self,
        registers: &mut [u8],
        offset: usize,
        value: u8,
        store: &[u8],
        table: &mut [i16],
        bounds: &mut [u64],
    ) -> u32 {
        unsafe {
            vengutari_write_register(
                registers.as_mut_ptr(),
                registers.len(),
                offset,
                value,
                store.as_ptr(),
                store.len(),
                table.as_mut_ptr(),
                table.len(),
                bounds.as_mut_ptr(),
                bounds.len(),
            )
        }
    }

    fn fit(&self, input: &[u8]) -> Vec<u8> {
        output_of(&self.fit, input)
    }

    fn bus(&self, input: &[u8]) -> Vec<u8> {
        output_of(&self.bus, input)
    }
}
