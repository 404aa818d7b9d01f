//! The cases, one group to a call: from a seed a group makes a case, calls the product and compares.

mod beacon;
mod beacon_sums;
mod bench;
mod boards;
mod bus;
mod crossings;
mod fit;
mod gaps;
mod lines;
mod merge;
mod model;
mod one_record;
mod ranges;
mod peel;
mod records;
mod search;
mod spoiled;
mod windows;

use crate::calls::{refusal_code, Calls};
use crate::inputs::Input;
use crate::lent::same;
use crate::random::Random;
use oracle::{Box8, Refusal};

/// A case's end: nothing, or what differs and the whole case.
pub type Outcome = Result<(), String>;

pub struct Group {
    pub name: &'static str,
    /// The call that is compared.
    pub call: &'static str,
    /// The number of cases of a run with fixed seeds.
    pub cases: u64,
    pub run: Run,
}

type Run = fn(&dyn Calls, &mut Random) -> Outcome;

const fn group(name: &'static str, call: &'static str, cases: u64, run: Run) -> Group {
    Group { name, call, cases, run }
}

pub const GROUPS: &[Group] = &[
    group("bench-A", "cost", 1, bench::a),
    group("bench-B", "loss", 1, bench::b),
    group("bench-C", "labels", 1, bench::c),
    group("bench-D", "bound", 1, bench::d),
    group("bench-E", "split", 1, bench::e),
    group("bench-F", "split", 1, bench::f),
    group("bench-G", "fit", 1, bench::g),
    group("bench-H", "fit", 1, bench::h),
    group("bench-I", "fit", 1, bench::i),
    group("bench-J", "fit", 1, bench::j),
    group("bench-G-to-J-searched", "search", 1, bench::searched),
    group("bench-K-written", "write_line", 1, bench::k_written),
    group("bench-K-read", "read_line", 1, bench::k_read),
    group("bench-L", "take_in", 1, bench::l),
    group("gaps-cost", "cost", 1, gaps::cost),
    group("gaps-bound", "bound", 1, gaps::bound),
    group("gaps-labels", "labels", 1, gaps::labels),
    group("gaps-fit", "fit", 1, gaps::fit),
    group("crossings", "labels", 1, crossings::labels),
    group("beacon-sums-by-hand", "cost_by_beacon", 1, beacon_sums::by_hand),
    group("beacon-sums-refused", "cost_by_beacon", 1, beacon_sums::refused),
    group("spoiled-cost", "cost", 1, spoiled::cost),
    group("spoiled-bound", "bound", 1, spoiled::bound),
    group("spoiled-fit", "fit", 1, spoiled::fit),
    group("spoiled-loss", "loss", 1, spoiled::loss),
    group("spoiled-labels", "labels", 1, spoiled::labels),
    group("spoiled-beacon-sums", "cost_by_beacon", 1, spoiled::beacon_sums),
    group("spoiled-cost-places", "cost", 1500, spoiled::cost_places),
    group("spoiled-bound-places", "bound", 1500, spoiled::bound_places),
    group("loss", "loss", 3000, model::loss),
    group("cost", "cost", 4000, model::cost),
    group("beacon-sums", "cost_by_beacon", 3000, beacon_sums::any),
    group("bound", "bound", 4000, model::bound),
    group("split", "split", 3000, model::split),
    group("labels", "labels", 3000, model::labels),
    group("take_in", "take_in", 3000, beacon::take_in),
    group("merge", "merge", 3000, merge::small),
    group("merge-large", "merge", 60, merge::large),
    group("merge-fitted", "merge", 1500, merge::fitted),
    group("merge-peeled", "merge", 800, merge::peeled),
    group("search-exhaustive", "search", 4000, search::exhaustive),
    group("search-spoiled", "search", 1500, search::spoiled),
    group("search-ties", "search", 200, search::ties),
    group("search-wide", "search", 1000, search::wide),
    group("search-gaps-alone", "search", 500, search::gaps_alone),
    group("search-one-record", "search", 1500, one_record::pairs),
    group("search-one-record-cap", "search", 1, one_record::cap_reached),
    group("search-damaged", "search", 2000, search::damaged),
    group("search-long", "search", 400, search::long),
    group("windows-by-hand", "windows", 1, windows::by_hand),
    group("windows-alone", "windows", 1500, windows::alone),
    group("windows-ends", "windows", 1500, windows::ends),
    group("windows-damaged", "windows", 2000, windows::damaged),
    group("boards", "boards", 1500, boards::mixed),
    group("boards-alone", "boards", 300, boards::each_alone),
    group("boards-refused", "boards", 500, boards::refused),
    group("boards-past-32-bits", "boards", 300, boards::past_32_bits),
    group("boards-by-hand", "boards", 1, boards::by_hand),
    group("ranges-exhaustive", "ranges", 4000, ranges::exhaustive),
    group("ranges-spoiled", "ranges", 1000, ranges::spoiled),
    group("ranges-wide", "ranges", 600, ranges::wide),
    group("ranges-damaged", "ranges", 2000, ranges::damaged),
    group("peel-by-hand", "peel", 1, peel::by_hand),
    group("peel-small", "peel", 3000, peel::small),
    group("peel-long", "peel", 150, peel::long),
    group("peel-gaps-alone", "peel", 300, peel::gaps_alone),
    group("peel-damaged", "peel", 3000, peel::damaged),
    group("read_job", "read_job", 500, records::read_job),
    group("write_job", "write_job", 500, records::write_job),
    group("read_answer", "read_answer", 2000, records::read_answer),
    group("write_answer", "write_answer", 2000, records::write_answer),
    group("write_line", "write_line", 1000, lines::write_line),
    group("read_line", "read_line", 3000, lines::read_line),
    group("write_line-all", "write_line", 1, lines::write_all),
    group("read_line-all", "read_line", 1, lines::read_all),
    group("fit-any", "fit", 600, fit::any),
    group("fit-sound", "fit", 400, fit::sound),
    group("bus-by-hand", "write_register", 1, bus::by_hand),
    group("bus-lengths", "write_register", 40, bus::lengths),
    group("bus-histories", "write_register", 400, bus::histories),
    group("bus-program", "bus", 200, bus::program),
    group("bus-program-cut", "bus", 60, bus::program_cut),
    group("example-driver", "bus", 1, bus::driver),
    group("example-modes_2d", "fit", 1, fit::modes_2d),
    group("example-modes_4d", "fit", 1, fit::modes_4d),
];

/// Compares a call's answer and value; `was` is the value that was lent.
fn same_answer(code: u32, value: u64, was: u64, expected: Result<u64, Refusal>) -> Outcome {
    same("answer", code, code_of(&expected))?;
    same("value", value, expected.unwrap_or(was))
}

fn code_of<T>(expected: &Result<T, Refusal>) -> u32 {
    match expected {
        Ok(_) => 0,
        Err(refusal) => refusal_code(*refusal),
    }
}

/// The length that a buffer must have, or now and then another.
fn length_of(random: &mut Random, right: usize) -> usize {
    if random.once_in(4) {
        random.pick(&[0, 1, right / 2, right - 1, right + 1, 2 * right])
    } else {
        right
    }
}

fn row_of(domain: &Box8) -> Vec<i16> {
    [domain.low, domain.high].concat()
}

fn hex(bytes: &[u8]) -> String {
    bytes.iter().map(|byte| format!("{byte:02X}")).collect()
}

fn with_case(outcome: Outcome, case: impl FnOnce() -> String) -> Outcome {
    outcome.map_err(|what| format!("{what}\n{}", case()))
}

impl std::fmt::Display for Input {
    fn fmt(&self, f: &mut std::fmt::Formatter) -> std::fmt::Result {
        write!(f, "  {:?}\n  store of {} bytes: {}", self.job, self.store.len(), hex(&self.store))
    }
}
