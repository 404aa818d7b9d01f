//! The registers of a stand-in, with their slips: a board that keeps its 136 bytes in the lent buffer.

use super::stand_in::{put, StandIn};
use super::Slip::*;
use crate::calls::WRONG_LENGTH;
use oracle::bus::{answer_record, run, REGISTERS, ROWS};
use oracle::points::RECORD;
use oracle::{read_job, Answer, Job, Refusal};

/// The job record in the registers.
fn job_in(registers: &[u8]) -> Job {
    read_job(registers[64..136].first_chunk().unwrap())
}

fn put_lent(answer: &Answer, table: &mut [i16], bounds: &mut [u64]) {
    for (row, open) in table.chunks_exact_mut(16).zip(&answer.open) {
        row[..8].copy_from_slice(&open.low);
        row[8..].copy_from_slice(&open.high);
    }
    put(bounds, &answer.bounds);
}

impl StandIn {
    fn registers_right(&self, registers: &[u8]) -> bool {
        registers.len() == REGISTERS || (self.slips(WrongLengthTaken) && registers.len() > REGISTERS)
    }

    pub fn reset_registers(&self, registers: &mut [u8]) -> u32 {
        if !self.registers_right(registers) {
            return WRONG_LENGTH;
        }
        let kept = registers[3];
        registers.fill(0);
        if self.slips(BusResetKeepsRefusal) {
            registers[3] = kept;
        }
        0
    }

    pub fn register(&self, registers: &[u8], offset: usize) -> u8 {
        let offset = if self.slips(BusOffsetsOfOneByte) { offset % 256 } else { offset };
        match offset {
            0 if self.slips(BusCommandReads) => registers[0],
            1 if self.slips(BusReadUnmasked) => registers[1],
            1 => registers[1] % 8,
            2 if self.slips(BusEnableBitsKept) => registers[2] % 4,
            2 => registers[2] % 2,
            3 | 8..=47 | 64..=135 => registers[offset],
            4..=7 | 48..=63 if self.slips(BusGapsTaken) => registers[offset],
            _ => 0,
        }
    }

    /// The search of a run by the lengths of what is lent.
    fn run_search(&self, job: &Job, store: &[u8], numbers: usize, entries: usize) -> Result<Answer, Refusal> {
        match self.slip {
            BusRowsNotCompared => oracle::search(job, store, numbers, entries),
            BusRowsFirst if numbers / 16 != job.rows as usize => Err(Refusal::Table),
            BusMoreRowsTaken if numbers / 16 > job.rows as usize => run(job, store, 16 * job.rows as usize, entries),
            BusEntriesUnchecked => run(job, store, numbers, entries.max(numbers / 16)),
            _ => run(job, store, numbers, entries),
        }
    }

    fn run_registers(&self, registers: &mut [u8], store: &[u8], table: &mut [i16], bounds: &mut [u64]) {
        let job = job_in(registers);
        let found = self.run_search(&job, store, table.len(), bounds.len());
        let refused = match &found {
            Ok(answer) => self.slips(BusSpentRefused) && answer.kind != oracle::Kind::Solved,
            Err(_) => true,
        };
        let enabled = registers[2] % 2 == 1 && !(self.slips(BusRefusedRunSilent) && refused);
        let was_pending = registers[1] / 4 % 2 == 1 && !self.slips(BusPendingClearedByRun);
        let other = if self.slips(BusOtherFlagKept) { registers[1] % 4 } else { 0 };
        registers[1] = (if refused { 2 } else { 1 }) | other | if enabled || was_pending { 4 } else { 0 };
        match found {
            Ok(answer) => {
                registers[3] = if self.slips(BusRefusalKept) { registers[3] } else { 0 };
                registers[8..48].copy_from_slice(&answer_record(&job, &answer));
                put_lent(&answer, table, bounds);
            }
            Err(refusal) => {
                registers[3] = refusal.number();
                if !self.slips(BusAnswerKeptAfterRefusal) {
                    registers[8..48].fill(0);
                }
            }
        }
    }

    /// Command 3.
    fn clear(&self, registers: &mut [u8]) {
        registers[1] = if self.slips(BusClearKeepsPending) { registers[1] & 4 } else { 0 };
        match self.slip {
            BusClearOfRefusal => registers[3] = 0,
            BusClearOfAnswer => registers[8..48].fill(0),
            BusClearDisables => registers[2] = 0,
            _ => {}
        }
    }

    fn enable(&self, registers: &mut [u8], value: u8) {
        registers[2] = value;
        match self.slip {
            BusDisableClearsPending if value % 2 == 0 => registers[1] &= 3,
            BusEnableMakesPending if value % 2 == 1 && registers[1] % 4 != 0 => registers[1] |= 4,
            _ => {}
        }
    }

    /// A job byte; with a slip the answer that is shown follows it.
    fn set_job(&self, registers: &mut [u8], offset: usize, value: u8, store: &[u8]) {
        registers[offset] = value;
        if self.slips(BusJobReadLate) && registers[1] % 2 == 1 {
            let job = job_in(registers);
            if let Ok(answer) = run(&job, store, 16 * (job.rows as usize).min(40), 40) {
                registers[8..48].copy_from_slice(&answer_record(&job, &answer));
            }
        }
    }

    pub fn set_register(
        &self,
        registers: &mut [u8],
        offset: usize,
        value: u8,
        store: &[u8],
        table: &mut [i16],
        bounds: &mut [u64],
    ) -> u32 {
        if !self.registers_right(registers) {
            return WRONG_LENGTH;
        }
        let offset = if self.slips(BusOffsetsOfOneByte) { offset % 256 } else { offset };
        match (offset, value) {
            (0, 2) => self.run_registers(registers, store, table, bounds),
            (0, 3) => self.clear(registers),
            (0, 1) if self.slips(BusCommand1Runs) => self.run_registers(registers, store, table, bounds),
            (0, _) => registers[0] = value,
            (1, _) if self.slips(BusFlagsTaken) => registers[1] = value,
            (2, _) => self.enable(registers, value),
            (3, _) if self.slips(BusRefusalTaken) => registers[3] = value,
            (4..=7 | 48..=63, _) if self.slips(BusGapsTaken) => registers[offset] = value,
            (8..=47, _) if self.slips(BusAnswerTaken) => registers[offset] = value,
            (64..=135, _) => self.set_job(registers, offset, value, store),
            _ => {}
        }
        0
    }

    /// The program over these registers.
    pub fn exchange(&self, input: &[u8]) -> Vec<u8> {
        let Some((records, rest)) = input.split_first_chunk::<2>() else {
            return vec![];
        };
        let records =
            if self.slips(ProgramLittleEndian) { u16::from_le_bytes(*records) } else { u16::from_be_bytes(*records) };
        let size = records as usize * RECORD;
        if rest.len() < size {
            return vec![];
        }
        let (store, accesses) = rest.split_at(size);
        let mut registers = [0; REGISTERS];
        let (mut table, mut bounds) = (vec![0; 16 * ROWS as usize], vec![0; ROWS as usize]);
        let mut replies = vec![];
        let length = if self.slips(ProgramAccessesOf3) { 3 } else { 4 };
        for access in accesses.chunks_exact(length) {
            let rows = if self.slips(ProgramAllRowsLent) { ROWS } else { job_in(&registers).rows.min(ROWS) } as usize;
            let offset = access[1] as usize;
            match access[0] {
                0 => replies.push(self.register(&registers, offset)),
                kind if kind == 1 || self.slips(ProgramAnyKindWrites) => {
                    let lent = &mut table[..16 * rows];
                    self.set_register(&mut registers, offset, access[2], store, lent, &mut bounds);
                    if self.slips(ProgramWritesReplied) {
                        replies.push(0);
                    }
                }
                _ => {}
            }
        }
        replies
    }
}
