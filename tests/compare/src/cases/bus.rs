//! The fitter on the data bus: histories of accesses, every offset read, by the calls and by the program.

use super::{hex, length_of, with_case, Outcome};
use crate::calls::{Calls, WRONG_LENGTH};
use crate::inputs::{self, Input};
use crate::lent::{same, Lent};
use crate::random::Random;
use oracle::bus::{exchange, Bus, REGISTERS, ROWS};
use oracle::points::RECORD;
use oracle::{read_job, write_job, Answer, Job};

/// Past the registers.
const FAR: [usize; 8] = [136, 137, 192, 255, 256, 64 + 256, 1 << 32, usize::MAX];

/// A board under test beside the oracle's.
struct Board<'a> {
    calls: &'a dyn Calls,
    registers: Lent<u8>,
    bus: Bus,
    store: Vec<u8>,
    history: Vec<String>,
}

/// What bytes mean as the board's state.
fn state_of(bytes: &[u8]) -> Bus {
    let flag = |bit: u8| bytes[1] >> bit & 1 == 1;
    Bus {
        done: flag(0),
        refused: flag(1),
        pending: flag(2),
        enabled: bytes[2] & 1 == 1,
        refusal: bytes[3],
        answer: bytes[8..48].try_into().unwrap(),
        job: bytes[64..136].try_into().unwrap(),
    }
}

/// The table and the list of bounds after a search; rows and entries from open up to peak are free.
fn lent_after(table: &Lent<i16>, bounds: &Lent<u64>, answer: Option<&Answer>) -> (Vec<i16>, Vec<u64>) {
    let (mut rows, mut entries) = (table.was().to_vec(), bounds.was().to_vec());
    if let Some(answer) = answer {
        let open = answer.open.len();
        rows[..16 * answer.peak].copy_from_slice(&table.now()[..16 * answer.peak]);
        entries[..answer.peak].copy_from_slice(&bounds.now()[..answer.peak]);
        for (row, domain) in rows.chunks_exact_mut(16).zip(&answer.open) {
            row[..8].copy_from_slice(&domain.low);
            row[8..].copy_from_slice(&domain.high);
        }
        entries[..open].copy_from_slice(&answer.bounds);
    }
    (rows, entries)
}

impl Board<'_> {
    /// After reset, or now and then with any bytes in its registers.
    fn new<'a>(calls: &'a dyn Calls, random: &mut Random, store: Vec<u8>) -> Result<Board<'a>, String> {
        let mut registers = Lent::new(REGISTERS, |count| random.bytes(count));
        let bus = if random.once_in(4) {
            state_of(registers.now())
        } else {
            same("answer of reset", calls.reset(registers.part()), 0)?;
            Bus::reset()
        };
        Ok(Board { calls, registers, bus, store, history: vec![] })
    }

    fn read(&self, random: &mut Random, offset: usize) -> Outcome {
        let was = random.next();
        let mut value = was;
        same("answer of a read", self.calls.read_register(self.registers.now(), offset, &mut value), 0)?;
        same(&format!("offset {offset}"), value, self.bus.read(offset) as u64)
    }

    fn read_all(&self, random: &mut Random) -> Outcome {
        (0..REGISTERS).chain(FAR).try_for_each(|offset| self.read(random, offset))?;
        // No byte beside the registers has changed.
        self.registers.holds("registers", self.registers.now())
    }

    fn write(&mut self, random: &mut Random, offset: usize, value: u8, numbers: usize, entries: usize) -> Outcome {
        self.history.push(format!("{offset} := {value} ({numbers}, {entries})"));
        let mut table = Lent::new(numbers, |count| random.numbers(count));
        let mut bounds = Lent::new(entries, |count| random.words(count));
        let registers = self.registers.part();
        let code = self.calls.write_register(registers, offset, value, &self.store, table.part(), bounds.part());
        same("answer of a write", code, 0)?;
        let found = self.bus.write(offset, value, &self.store, numbers, entries);
        let answer = found.as_ref().and_then(|found| found.as_ref().ok());
        let (rows, list) = lent_after(&table, &bounds, answer);
        table.holds("table", &rows)?;
        bounds.holds("bounds", &list)
    }

    /// One access of any kind: mostly commands, with the job's rows or others; job bytes, right ones and any.
    fn access(&mut self, random: &mut Random, job: &Job) -> Outcome {
        let rows = (read_job(&self.bus.job).rows as usize).min(40);
        let other = random.pick(&[0, 1, rows + 1, rows.saturating_sub(1)]);
        let lent = if random.once_in(6) { other } else { rows };
        let numbers = 16 * lent + random.pick(&[0, 0, 0, 1, 15]);
        let entries = if random.once_in(8) { lent.saturating_sub(1) } else { lent + random.size(0, 2) };
        let any = random.next() as u8;
        let (offset, value) = match random.below(16) {
            0..=5 => (0, 2),
            6 | 7 => (0, 3),
            8 => (0, random.pick(&[0, 1, 4, 128, 255, 130])),
            9 | 10 => (2, random.pick(&[0, 1, 2, 3, 254, 255])),
            11 => {
                let k = random.size(0, 71);
                (64 + k, write_job(job)[k])
            }
            12 => (random.size(64, 135), any),
            13 => (random.pick(&[1, 3, 4, 7, 8, 9, 47, 48, 63]), any),
            14 => (random.pick(&FAR), random.pick(&[2, 3, any])),
            _ => (random.size(0, 140), any),
        };
        self.write(random, offset, value, numbers, entries)
    }

    fn set_job(&mut self, random: &mut Random, job: &Job) -> Outcome {
        let mut places: Vec<usize> = (0..72).collect();
        while !places.is_empty() {
            let k = places.swap_remove(random.below(places.len() as u64) as usize);
            self.write(random, 64 + k, write_job(job)[k], 0, 0)?;
        }
        Ok(())
    }

    fn told(&self, job: &Job) -> String {
        let history = self.history.join(", ");
        format!("  {job:?}\n  store {}\n  writes, with the lengths of table and list: {history}", hex(&self.store))
    }
}

/// A job that is quickly searched, once in four damaged.
fn quick(random: &mut Random) -> Input {
    let limit = random.pick(&[1, 4, 30, 200]);
    let mut input = inputs::small(random, limit);
    input.job.budget = random.pick(&[0, 1, 5, 300]);
    input.job.t = random.pick(&[0, 0, 1, 1000]);
    input.job.rows = random.pick(&[1, 1, 2, 3, 8, 20]);
    if random.once_in(4) {
        inputs::damage(random, &mut input);
    }
    input
}

/// Accesses of all kinds from reset on, or from any state; after each every offset is read.
pub fn histories(calls: &dyn Calls, random: &mut Random) -> Outcome {
    let Input { job, store } = quick(random);
    let mut board = Board::new(calls, random, store)?;
    let outcome = board.read_all(random).and_then(|()| {
        if !random.once_in(8) {
            board.set_job(random, &job)?;
        }
        for _ in 0..random.size(4, 24) {
            board.access(random, &job)?;
            board.read_all(random)?;
            // The record as it was meant, after some bytes of it were not.
            if random.once_in(8) {
                board.set_job(random, &job)?;
                board.read_all(random)?;
            }
        }
        Ok(())
    });
    with_case(outcome, || board.told(&job))
}

/// Registers of other lengths: nothing is read or written.
pub fn lengths(calls: &dyn Calls, random: &mut Random) -> Outcome {
    let length = length_of(random, REGISTERS);
    let mut registers = Lent::new(length, |count| random.bytes(count));
    let (mut table, mut bounds) =
        (Lent::new(16, |count| random.numbers(count)), Lent::new(1, |count| random.words(count)));
    let code = if length == REGISTERS { 0 } else { WRONG_LENGTH };
    let was = random.next();
    let mut value = was;
    same("answer of a read", calls.read_register(registers.now(), 0, &mut value), code)?;
    same("value", value, if code == 0 { 0 } else { was })?;
    let written = calls.write_register(registers.part(), 64, 1, &[0; 12], table.part(), bounds.part());
    same("answer of a write", written, code)?;
    let mut expected = registers.was().to_vec();
    if code == 0 {
        expected[64] = 1;
    }
    registers.holds("registers", &expected)?;
    table.holds("table", table.was())?;
    bounds.holds("bounds", bounds.was())?;
    same("answer of reset", calls.reset(registers.part()), code)?;
    registers.holds("registers after reset", &if code == 0 { vec![0; length] } else { expected })
}

/// Fit G of the paper by the registers, with what each byte must read.
pub fn by_hand(calls: &dyn Calls, _: &mut Random) -> Outcome {
    let store: Vec<u8> =
        [(2, 0), (2, 1), (9, 2)].iter().flat_map(|&(y, frame)| [0, 1, 0, 0, 0, 0, 0, 0, 0, y, 0, frame]).collect();
    let mut registers = [0xA5; REGISTERS];
    same("reset", calls.reset(&mut registers), 0)?;
    let write = |registers: &mut [u8], offset, value, rows: usize| {
        let (mut table, mut bounds) = (vec![0; 16 * rows], vec![0; rows]);
        calls.write_register(registers, offset, value, &store, &mut table, &mut bounds)
    };
    let read = |registers: &[u8], offset| {
        let mut value = u64::MAX;
        calls.read_register(registers, offset, &mut value);
        value
    };
    let all = |registers: &[u8], from: usize, to: usize| {
        (from..to).map(|offset| read(registers, offset)).collect::<Vec<_>>()
    };
    for (offset, value) in
        [(64, 1), (65, 1), (67, 1), (71, 2), (83, 10), (87, 4), (105, 3), (2, 255), (1, 7), (8, 7), (0, 9)]
    {
        same("write", write(&mut registers, offset, value, 0), 0)?;
    }
    same("before the run", all(&registers, 0, 9), vec![0, 0, 1, 0, 0, 0, 0, 0, 0])?;
    write(&mut registers, 0, 2, 4);
    same("done, pending", all(&registers, 0, 4), vec![0, 5, 1, 0])?;
    let answer: Vec<u64> = [&[0, 2][..], &[0; 21], &[2], &[0; 7], &[2], &[0, 0, 0, 1], &[1, 1, 1, 0]].concat();
    same("answer", all(&registers, 8, 48), answer.clone())?;
    write(&mut registers, 67, 9, 0);
    same("the answer of the job as it stood", all(&registers, 8, 48), answer.clone())?;
    write(&mut registers, 0, 3, 0);
    same("cleared", all(&registers, 0, 4), vec![0, 0, 1, 0])?;
    same("the answer stays", all(&registers, 8, 48), answer)?;
    write(&mut registers, 0, 2, 4);
    same("refused, pending", all(&registers, 0, 4), vec![0, 6, 1, 4])?;
    same("zeros", all(&registers, 8, 48), vec![0; 40])?;
    write(&mut registers, 2, 2, 0);
    write(&mut registers, 67, 1, 0);
    write(&mut registers, 0, 2, 5);
    same("other rows", all(&registers, 0, 4), vec![0, 6, 0, 8])?;
    write(&mut registers, 0, 3, 0);
    same("byte 3 stays", all(&registers, 0, 4), vec![0, 0, 0, 8])?;
    write(&mut registers, 0, 2, 4);
    same("done, not enabled", all(&registers, 0, 4), vec![0, 1, 0, 0])?;
    Ok(())
}

/// Accesses as the program takes them: mostly sound, some of no kind.
fn accesses(random: &mut Random, job: &Job) -> Vec<u8> {
    let mut bytes = vec![];
    let record = write_job(job);
    let mut access = |kind: u8, offset: usize, value: u8, spare: u8| bytes.extend([kind, offset as u8, value, spare]);
    (0..72).for_each(|k| access(1, 64 + k, record[k], 0));
    for _ in 0..random.size(3, 30) {
        let spare = random.pick(&[0, 0, 0, 255]);
        match random.below(9) {
            0 | 1 => access(1, 0, 2, spare),
            2 => access(1, 0, random.pick(&[3, 3, 1, 4]), spare),
            3 => access(1, 2, random.next() as u8, spare),
            4 => {
                let any = random.size(0, 255);
                access(1, random.pick(&[1, 3, 4, 8, 47, 48, 63, any, any]), random.next() as u8, spare)
            }
            5 => {
                let k = random.size(0, 71);
                access(1, 64 + k, record[k], spare)
            }
            6 => access(random.pick(&[2, 3, 128, 255]), random.size(0, 255), random.pick(&[2, 3]), spare),
            7 => access(0, random.size(0, 255), 2, spare),
            _ => (0..=255).for_each(|offset| access(0, offset, 0, spare)),
        }
    }
    bytes
}

fn run_program(calls: &dyn Calls, input: &[u8]) -> Outcome {
    with_case(same("replies", calls.bus(input), exchange(input)), || format!("  input {}", hex(input)))
}

fn input_of(store: &[u8], accesses: &[u8]) -> Vec<u8> {
    [&((store.len() / RECORD) as u16).to_be_bytes()[..], store, accesses].concat()
}

/// Whole exchanges through the program.
pub fn program(calls: &dyn Calls, random: &mut Random) -> Outcome {
    let Input { mut job, mut store } = quick(random);
    store.truncate(store.len() / RECORD * RECORD);
    job.rows = random.pick(&[job.rows, 1, 2, 20, ROWS - 1, ROWS, ROWS + 1, 0, 65_536 + 2, u32::MAX]);
    let accesses = accesses(random, &job);
    run_program(calls, &input_of(&store, &accesses))
}

/// Inputs that are cut short, in the number, the store or an access.
pub fn program_cut(calls: &dyn Calls, random: &mut Random) -> Outcome {
    let Input { job, mut store } = quick(random);
    store.truncate(store.len().min(40 * RECORD) / RECORD * RECORD);
    let accesses = accesses(random, &job);
    let mut input = input_of(&store, &accesses);
    let end = random.pick(&[
        0,
        1,
        2,
        3,
        store.len() + 1,
        store.len() + 2,
        store.len() + 5,
        input.len() - 1,
        input.len() - 2,
    ]);
    input.truncate(end.min(input.len()));
    run_program(calls, &input)
}

/// The example, with the replies that stand beside it.
pub fn driver(calls: &dyn Calls, _: &mut Random) -> Outcome {
    let folder = std::path::Path::new(env!("CARGO_MANIFEST_DIR")).join("../../examples");
    let file = |name: &str| std::fs::read(folder.join(name)).map_err(|error| error.to_string());
    same("replies", calls.bus(&file("driver.in")?), file("driver.out")?)
}
