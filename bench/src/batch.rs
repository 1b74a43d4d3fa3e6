//! The nightly batch: many mixed tables, each opened, quoted and searched.

use crate::measure::{median, Buffers};
use crate::sides::{Times, SIDES};
use crate::tables::cases;
use lasso::Found;
use std::hint::black_box;
use std::time::Instant;

pub const TABLES: usize = 10_000;

/// The sides take turns after this many tables.
const BLOCK: usize = 250;

/// What the tables of the batch are, and the seconds that each side took for all of them.
pub struct Batch {
    pub rounds: usize,
    pub refused: usize,
    pub lassos: usize,
    pub seconds: Times,
}

/// The median of the rounds for each side.
pub fn measured(rounds: usize, buffers: &mut Buffers) -> Batch {
    let tables = cases::night(TABLES);
    let mut seconds = [(); 3].map(|()| Vec::new());
    for _ in 0..rounds {
        let times = one_round(&tables, buffers);
        seconds.iter_mut().zip(times).for_each(|(seconds, time)| seconds.push(time));
    }
    let (mut refused, mut lassos) = (0, 0);
    for table in &tables {
        match lasso::search(table, &mut buffers.workspace, &mut buffers.report) {
            Ok(Found::Lasso { .. }) => lassos += 1,
            Ok(Found::Holds) => {}
            Err(_) => refused += 1,
        }
    }
    Batch {
        rounds,
        refused,
        lassos,
        seconds: seconds.map(median),
    }
}

fn one_round(tables: &[Vec<u8>], buffers: &mut Buffers) -> Times {
    let mut seconds = [0.0; 3];
    for block in tables.chunks(BLOCK) {
        for (side, seconds) in SIDES.iter().zip(&mut seconds) {
            let begin = Instant::now();
            for table in block {
                let _ = black_box((side.open)(black_box(table)));
                let _ = black_box((side.quote)(black_box(table)));
                let _ = black_box((side.search)(black_box(table), &mut buffers.workspace, &mut buffers.report));
            }
            *seconds += begin.elapsed().as_secs_f64();
        }
    }
    seconds
}
