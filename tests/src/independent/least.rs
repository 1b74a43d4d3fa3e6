//! The least lasso ("Lasso and choice"): the smallest k from the countdown, then place by place the least number that a lasso of this length can have
//! there, among those that agree with the numbers so far.

use super::countdown::Countdown;
use super::definition::{place_number, Lasso};
use super::hang::loop_states;
use super::masks::{members, Masks};
use super::table::Table;

/// A beginning up to one place, as in the countdown.
#[derive(Clone, Copy)]
enum Beginning {
    NotBegun { s: usize },
    Begun { q: usize, missing: usize, s: usize },
}

pub struct Least {
    pub lasso: Lasso,
    /// At how many places more than one number was left to choose from.
    pub choices: usize,
}

pub fn least_lasso(table: &Table) -> Option<Least> {
    let masks = Masks::of(table);
    let loop_states = loop_states(&masks);
    if loop_states == 0 {
        return None;
    }
    let countdown = Countdown::to_a_start(&masks, loop_states);
    let k = countdown.k();
    let mut choices = 0;
    let mut numbers = Vec::new();
    let mut offered = at_place_0(&masks, &countdown);
    for place in 0..=k {
        let least = offered
            .iter()
            .map(|offer| offer.0)
            .min()
            .expect("independent side: no place can be left without a number");
        choices += usize::from(offered.iter().any(|offer| offer.0 != least));
        numbers.push(least);
        let agreeing = offered.iter().filter(|offer| offer.0 == least);
        offered = agreeing.flat_map(|offer| onward(&masks, &countdown, k - place, offer.1)).collect();
    }
    // What is offered now is the number of place k+1: the state sl of every lasso that agrees up to place k.
    numbers.push(
        offered
            .iter()
            .map(|offer| offer.0)
            .min()
            .expect("independent side: a lasso must be closed"),
    );
    Some(Least {
        lasso: lasso_of_numbers(&numbers),
        choices,
    })
}

/// A number for the next place, and the beginning up to there.
type Offer = (usize, Beginning);

fn at_place_0(masks: &Masks, countdown: &Countdown) -> Vec<Offer> {
    let begins = members(masks.starts).filter(|&s| countdown.can_begin(countdown.k(), s));
    begins.map(|s| (place_number(s, true), Beginning::NotBegun { s })).collect()
}

/// What can follow a beginning when r more states are to come after it.
fn onward(masks: &Masks, countdown: &Countdown, r: usize, beginning: Beginning) -> Vec<Offer> {
    match beginning {
        Beginning::Begun { q, missing, s } => within_loop(masks, countdown, r, q, missing, s),
        Beginning::NotBegun { s } => {
            let missing = (masks.with_bits.len() - 1) & !masks.bits[s];
            let mut offers = within_loop(masks, countdown, r, s, missing, s);
            offers.extend(before_loop(masks, countdown, r, s));
            offers
        }
    }
}

/// The loop's place is before the next one: the next number has no 1 added.
fn within_loop(masks: &Masks, countdown: &Countdown, r: usize, q: usize, missing: usize, s: usize) -> Vec<Offer> {
    if r == 0 {
        let closes = countdown.can_close(0, q, missing, s);
        return if closes {
            vec![(place_number(q, false), Beginning::Begun { q, missing, s: q })]
        } else {
            Vec::new()
        };
    }
    let after = |next: usize| missing & !masks.bits[next];
    let can = members(masks.next[s]).filter(|&next| countdown.can_close(r - 1, q, after(next), next));
    can.map(|next| {
        (
            place_number(next, false),
            Beginning::Begun {
                q,
                missing: after(next),
                s: next,
            },
        )
    })
    .collect()
}

/// The loop's place is the next one or a later one: the next number has 1 added.
fn before_loop(masks: &Masks, countdown: &Countdown, r: usize, s: usize) -> Vec<Offer> {
    if r == 0 {
        return Vec::new();
    }
    let can = members(masks.next[s]).filter(|&next| countdown.can_begin(r - 1, next));
    can.map(|next| (place_number(next, true), Beginning::NotBegun { s: next })).collect()
}

/// The numbers of places 0 to k+1 tell the states, and l is the last place with 1 added.
fn lasso_of_numbers(numbers: &[usize]) -> Lasso {
    let l = numbers
        .iter()
        .rposition(|number| number % 2 == 1)
        .expect("independent side: place 0 is never after l");
    Lasso {
        states: numbers[..numbers.len() - 1].iter().map(|number| number / 2).collect(),
        l,
    }
}
