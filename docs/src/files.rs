//! The table files of a run.

use crate::damage::damaged;
use crate::draws::Draws;
use crate::good::{
    extreme, good, largest, many_jobs, FULL, HEAVY, LARGE, LONG, MIDDLE, SMALL, TINY,
};
use crate::table::file;

/// What a case is there for, and its bytes.
pub type Named = (&'static str, Vec<u8>);

/// A file of one of the kinds, the damaged ones among them.
pub fn drawn(draws: &mut Draws) -> Named {
    match draws.below(40) {
        0..=2 => ("tiny table", file(&good(draws, &TINY))),
        3..=5 => ("small table", file(&good(draws, &SMALL))),
        6..=7 => ("middle table", file(&good(draws, &MIDDLE))),
        8..=10 => ("table with long windows", file(&good(draws, &LONG))),
        11..=12 => ("table with heavy load", file(&good(draws, &HEAVY))),
        13 => ("table with many jobs", file(&many_jobs(draws))),
        14 => ("large table", file(&good(draws, &LARGE))),
        15 => ("64 rows and 1,024 times", file(&good(draws, &FULL))),
        16..=17 => ("ends of ranges", file(&extreme(draws))),
        18 => ("5,121 bytes", file(&largest(draws))),
        other => damaged(draws, other - 19),
    }
}
