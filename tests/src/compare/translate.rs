//! Compares translate: its answer, the bytes it writes and those it must leave, with outputs of many lengths ("The recorder", last paragraph;
//! "Refusal list", line 11).

use super::bench::{Bench, Stop};
use super::case::Case;
use super::lent::{bytes, Lent};
use super::library;
use super::table::Depth;
use crate::draw::random::Random;
use crate::independent::lengths::translate_refused;
use crate::independent::quote::Quote;
use crate::independent::refusal::Refusal;
use crate::independent::table::Table;
use crate::independent::translator;

/// Bytes lent beyond what is needed, at most.
const BEYOND: usize = 3;
/// Translations longer than this are written for one table in so many only, as they take most of the time.
const LONG_BYTES: usize = 200_000;
const ONE_LONG_IN: usize = 3;

pub fn compare(bench: &mut Bench, case: &Case, random: &mut Random, table: &Table, quote: &Quote, depth: Depth) -> Result<(), Stop> {
    if quote.bytes > LONG_BYTES && random.below(ONE_LONG_IN) > 0 {
        let short = random.below(LONG_BYTES);
        return once(bench, case, quote, &mut bytes(random, short), short, &[]);
    }
    let translated = translator::translate(table);
    let mut output = bytes(random, quote.bytes + BEYOND);
    for length in lengths(random, quote.bytes, depth) {
        once(bench, case, quote, &mut output, length, &translated)?;
    }
    Ok(())
}

fn lengths(random: &mut Random, needed: usize, depth: Depth) -> Vec<usize> {
    match depth {
        Depth::Sweep => (0..=needed + BEYOND).collect(),
        Depth::Sample => {
            let mut lengths = vec![0, 27, 28, needed - 1, needed, needed + 1, needed + BEYOND];
            lengths.extend((0..3).map(|_| random.below(needed)));
            lengths
        }
        Depth::Few => vec![random.below(needed), needed - 1, random.between(needed, needed + BEYOND)],
    }
}

fn once(bench: &mut Bench, case: &Case, quote: &Quote, output: &mut Lent<u8>, length: usize, translated: &[u8]) -> Result<(), Stop> {
    let answer = library::translate(case.table, output.lend(length));
    let refused = translate_refused(quote, length);
    let (expected, written) = match refused {
        Some(refused) => (Err(refused.refusal), &[][..]),
        None => (Ok(quote.bytes), translated),
    };
    bench.agree(case, format_args!("translate into {length} bytes"), &answer, &expected)?;
    bench.agree(
        case,
        format_args!("first wrong byte of {length} output bytes"),
        &output.take_back(written),
        &None,
    )?;
    refused.into_iter().for_each(|refused| bench.tally.refused(refused));
    Ok(())
}

/// On a table that is refused, nothing may change, whatever the length.
pub fn compare_refused(bench: &mut Bench, case: &Case, random: &mut Random, refusal: Refusal) -> Result<(), Stop> {
    let length = random.pick(&[0, 27, 28, 100, 2_000]);
    let mut output = bytes(random, length);
    let answer = library::translate(case.table, output.lend(length));
    bench.agree(case, format_args!("translate into {length} bytes"), &answer, &Err(refusal))?;
    bench.agree(
        case,
        format_args!("first wrong byte of {length} output bytes"),
        &output.take_back(&[]),
        &None,
    )
}
