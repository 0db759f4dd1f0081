// Times the port beside the Rust, plain C and OpenJPEG, in one process, and compares what they give. Prints a line for each
// case, of which bench/table.py makes tables. Built and run by bench/run. Call: bench [usual] [special] [file]

include!("../tests/oracle/osclet.rs");

mod allocations;
mod cases;
mod file;
mod filters;
mod plain;
mod rows;
mod samples;
mod timing;

use crate::cases::{Levels, cases};
use crate::cdf53f::Cdf53;
use crate::cdf53i::Cdf53Integer;
use crate::cdf97f::Cdf97;
use crate::filters::Filter;
use crate::samples::Float;

// A redraw's levels, and all that there are.
const FIVE: Levels = ("five levels", 5);
const ALL: Levels = ("full depth", 15);

fn usual<F: Filter>() {
    cases::<F>(&samples::usual(), &[FIVE, ALL]);
}

fn special<F: Filter<Sample: Float>>() {
    for recording in samples::special() {
        cases::<F>(&recording, &[FIVE]);
    }
}

const USUAL: &[fn()] = &[
    usual::<Cdf53Integer<i8, i32>>,
    usual::<Cdf53Integer<i16, i32>>,
    usual::<Cdf53Integer<i32, i64>>,
    usual::<Cdf53<f32>>,
    usual::<Cdf53<f64>>,
    usual::<Cdf97<f32>>,
    usual::<Cdf97<f64>>,
];

const SPECIAL: &[fn()] = &[
    special::<Cdf53<f32>>,
    special::<Cdf53<f64>>,
    special::<Cdf97<f32>>,
    special::<Cdf97<f64>>,
];

const PARTS: &[(&str, &[fn()])] = &[
    ("usual", USUAL),
    ("special", SPECIAL),
    ("file", &[file::cases]),
];

// glibc gives the pages of a large block back when it is freed, and the Rust, which allocates, then waits for
// new ones in some cases and not in others. Once a larger block was freed it keeps them.
fn keep_pages() {
    drop(std::hint::black_box(vec![1_u8; 16 << 20]));
}

fn main() {
    let asked: Vec<String> = std::env::args().skip(1).collect();
    let known = |name: &String| PARTS.iter().any(|(part, _)| part == name);
    assert!(
        asked.iter().all(known),
        "usage: bench [usual] [special] [file]"
    );
    keep_pages();
    for (part, cases) in PARTS {
        if asked.is_empty() || asked.iter().any(|name| name == part) {
            cases.iter().for_each(|case| case());
        }
    }
}
