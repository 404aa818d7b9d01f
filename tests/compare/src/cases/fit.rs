//! The program fit: one line for any input.

use super::{hex, with_case, Outcome};
use crate::calls::Calls;
use crate::inputs::{self, Input};
use crate::lent::same;
use crate::random::Random;

fn input_of(case: &Input) -> Vec<u8> {
    let mut input = oracle::write_job(&case.job).to_vec();
    input.extend(&case.store);
    input
}

fn compare(calls: &dyn Calls, input: &[u8]) -> Outcome {
    let written = calls.fit(input);
    let outcome = same("output", String::from_utf8_lossy(&written).as_ref(), oracle::fit(input).as_str());
    with_case(outcome, || format!("  input of {} bytes: {}", input.len(), hex(input)))
}

/// Sound jobs on small boxes.
pub fn sound(calls: &dyn Calls, random: &mut Random) -> Outcome {
    let mut case = inputs::small(random, 5000);
    case.job.budget = random.pick(&[0, 3, 50, 5000]);
    case.job.rows = random.pick(&[1, 2, 8, 100, 2047, 2048]);
    case.job.t = random.pick(&[0, 0, 1, 10]);
    compare(calls, &input_of(&case))
}

/// Jobs with damage, rows out of range, inputs cut short and inputs of great length.
pub fn any(calls: &dyn Calls, random: &mut Random) -> Outcome {
    let mut case = inputs::any(random);
    case.keep(random.pick(&[50, 50, 50, usize::MAX]));
    case.job.budget = random.below(4) as u32;
    case.job.rows = random.pick(&[1, 4, 2048, 0, 2049, 65_537, u32::MAX]);
    let mut input = input_of(&case);
    match random.below(16) {
        0 | 1 => input.truncate(random.pick(&[0, 1, 71, 72, 73, 83])),
        2 => input.resize(72 + random.pick(&[49_152, 49_153, 49_164, 65_532, 65_544, 300_000]), 0),
        _ => {}
    }
    compare(calls, &input)
}

fn example(calls: &dyn Calls, name: &str) -> Outcome {
    let folder = std::path::Path::new(env!("CARGO_MANIFEST_DIR")).join("../../examples");
    let input = std::fs::read(folder.join(name).with_extension("job")).map_err(|error| error.to_string())?;
    let line = std::fs::read_to_string(folder.join(name).with_extension("out")).map_err(|error| error.to_string())?;
    same(name, String::from_utf8_lossy(&calls.fit(&input)).as_ref(), line.as_str())
}

/// The examples, with the lines that stand beside them.
pub fn modes_2d(calls: &dyn Calls, _: &mut Random) -> Outcome {
    example(calls, "modes_2d")
}

pub fn modes_4d(calls: &dyn Calls, _: &mut Random) -> Outcome {
    example(calls, "modes_4d")
}
