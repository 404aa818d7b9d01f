//! Times the proved code against plain Rust.
//!
//!     bench evaluations [ROUNDS]   one evaluation of a cost and of a bound, 400 rounds
//!     bench ranks [ROUNDS]         the same with p = 3, against p = 1 as well, 400 rounds
//!     bench search [ROUNDS]        whole searches, 10 rounds
//!     bench ranges [ROUNDS]        searches for ranges, beside a split of the search, 10 rounds
//!     bench growth [ROUNDS]        what a split takes by how many boxes are open, 3 rounds
//!     bench windows [ROUNDS]       windows in one call against one by one, 40 rounds
//!     bench compare                that both sides give the same; ends 'N passed, M failed'
//!     bench once N D P             one evaluation of each, for counting instructions
//!     bench once-search NUMBER     one search of each kind on the job of that number, likewise
//!     bench once-growth SPLITS     one proved search whose list grows for so many splits, likewise
//!
//! Rounds are interleaved, and the least time of each side counts.
mod checked;
mod clock;
mod evaluations;
mod jobs;
mod keeping;
mod plain;
mod random;
mod ranges;
mod ranks;
mod rattle;
mod search;
mod searches;
mod windows;

/// A difference stops the program.
fn compare() {
    let passed = evaluations::compare_all()
        + ranks::compare_all()
        + searches::compare_all()
        + ranges::compare_all()
        + windows::compare_all();
    println!("{passed} passed, 0 failed");
}

fn main() {
    let words: Vec<String> = std::env::args().skip(1).collect();
    let number = |k: usize| words[k].parse::<usize>().expect("a number");
    match (words.first().map_or("", String::as_str), words.len()) {
        ("evaluations", 1) => evaluations::table(400),
        ("evaluations", 2) => evaluations::table(number(1)),
        ("ranks", 1) => ranks::table(400),
        ("ranks", 2) => ranks::table(number(1)),
        ("search", 1) => searches::table(10),
        ("search", 2) => searches::table(number(1)),
        ("ranges", 1) => ranges::table(10),
        ("ranges", 2) => ranges::table(number(1)),
        ("growth", 1) => searches::growth(3),
        ("growth", 2) => searches::growth(number(1)),
        ("windows", 1) => windows::table(40),
        ("windows", 2) => windows::table(number(1)),
        ("compare", 1) => compare(),
        ("once", 4) => evaluations::once(number(1), number(2), number(3) as u8),
        ("once-search", 2) => searches::once(number(1)),
        ("once-growth", 2) => searches::once_growing(number(1) as u32),
        _ => {
            eprintln!(
                "bench evaluations|ranks|search|ranges|growth|windows [ROUNDS] | compare | once N D P | once-search NUMBER | once-growth SPLITS"
            );
            std::process::exit(2);
        }
    }
}
