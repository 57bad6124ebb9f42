//! drop_in COUNT [SEED]: draws COUNT random tables by comfy-table and by the proved package, and reads from them. Differences are
//! counted by the rows of docs/DIFFERENCES.md that explain them. If no rows explain the difference of a table, the table is
//! printed, and the run ends with a failure.
mod described;
mod differences;
mod shown;

use described::{Chance, Described};
use std::collections::BTreeMap;
use std::panic;
use std::process::ExitCode;

/// A table's drawings.
#[derive(Clone, Debug, PartialEq)]
pub struct Drawing {
    pub text: String,
    pub trimmed: String,
    pub lines: Vec<String>,
}

mod original {
    use crate::Drawing;
    use crate::described::{Described, DescribedCell, DescribedColumn, DescribedRow, DescribedStyle};
    use comfy_table::*;

    include!("answers.rs");
}

mod proved {
    use crate::Drawing;
    use crate::described::{Described, DescribedCell, DescribedColumn, DescribedRow, DescribedStyle};
    use comfy_table_proved::*;

    include!("answers.rs");
}

fn main() -> ExitCode {
    let mut arguments = std::env::args().skip(1).map(|word| word.parse().expect("a number"));
    let count: u64 = arguments.next().expect("COUNT");
    let seed: u64 = arguments.next().unwrap_or(1);
    // Panics of the original count as differences, so they needn't be printed.
    panic::set_hook(Box::new(|_| ()));
    let mut counts: BTreeMap<&str, u64> = BTreeMap::new();
    for number in 0..count {
        let described = Described::of(&mut Chance(seed.wrapping_mul(1 << 32).wrapping_add(number)));
        match differences::between(&described) {
            Some(row) => *counts.entry(row).or_default() += 1,
            None => {
                eprintln!("table {number} of seed {seed} differs, and no row explains it: {described:#?}");
                eprintln!("original\n{:#?}", panic::catch_unwind(|| original::drawing(&described)));
                eprintln!("package\n{:#?}", panic::catch_unwind(|| proved::drawing(&described)));
                return ExitCode::FAILURE;
            }
        }
    }
    for (row, count) in counts {
        println!("{count:>8}  {row}");
    }
    ExitCode::SUCCESS
}
