//! Tests of the least lasso against every list of states, one after the other, on tables of up to three states ("Lasso and choice").

use super::definition::{is_lasso, Lasso};
use super::file::open;
use super::least::least_lasso;
use super::table::Table;
use crate::draw::random::Random;
use crate::draw::sketch::Sketch;

/// More than the length of any least lasso of three states: a loop through all three is a ring of three edges, or a path there and back of four.
const LONGEST: usize = 5;

fn numbers(states: &[usize], l: usize) -> Vec<usize> {
    let closed = states.iter().chain([&states[l]]);
    closed.enumerate().map(|(i, &s)| if i <= l { 2 * s + 1 } else { 2 * s }).collect()
}

/// Every list of k+1 states.
fn every_list(table: &Table, k: usize) -> Vec<Vec<usize>> {
    let n = table.states();
    let count = n.pow(k as u32 + 1);
    let list = |number: usize| (0..=k).map(|place| number / n.pow(place as u32) % n).collect();
    (0..count).map(list).collect()
}

/// Every list of k+1 states from a start, edge by edge. No other list can be a lasso.
fn every_run(table: &Table, k: usize) -> Vec<Vec<usize>> {
    let mut runs: Vec<Vec<usize>> = (0..table.states()).filter(|&s| table.start[s]).map(|s| vec![s]).collect();
    for place in 0..k {
        let onward = |run: &Vec<usize>| {
            let nexts = table.successors[run[place]].iter();
            nexts.map(|&next| [&run[..], &[next]].concat()).collect::<Vec<_>>()
        };
        runs = runs.iter().flat_map(onward).collect();
    }
    runs
}

type Lists = fn(&Table, usize) -> Vec<Vec<usize>>;

fn least_by_listing(table: &Table, lists: Lists, longest: usize) -> Option<Lasso> {
    (0..=longest).find_map(|k| {
        let all = lists(table, k).into_iter().flat_map(|states| (0..=k).map(move |l| (states.clone(), l)));
        let lassos = all.filter(|(states, l)| is_lasso(table, states, *l));
        lassos
            .min_by_key(|(states, l)| numbers(states, *l))
            .map(|(states, l)| Lasso { states, l })
    })
}

fn check_with(sketch: &Sketch, lists: Lists, longest: usize) -> Option<usize> {
    let table = open(&sketch.file()).expect("an accepted table");
    let listed = least_by_listing(&table, lists, longest);
    assert_eq!(least_lasso(&table).map(|least| least.lasso), listed, "{sketch:?}");
    listed.map(|lasso| lasso.states.len() - 1)
}

fn check(sketch: &Sketch) -> Option<usize> {
    check_with(sketch, every_list, LONGEST)
}

/// Takes the lowest bits off a number.
fn take(number: &mut usize, count: usize) -> u64 {
    let bits = *number & ((1 << count) - 1);
    *number >>= count;
    bits as u64
}

/// All tables of n states and m sets without an empty row.
fn every_table(n: usize, m: usize) -> impl Iterator<Item = Sketch> {
    (0..1usize << (n * (n + 2 + m))).filter_map(move |mut number| {
        let rows: Vec<u64> = (0..n).map(|_| take(&mut number, n)).collect();
        let (start, goal) = (take(&mut number, n), take(&mut number, n));
        let sets = (0..m).map(|_| take(&mut number, n)).collect();
        rows.iter().all(|&row| row != 0).then_some(Sketch { rows, start, goal, sets })
    })
}

#[test]
fn every_table_of_one_state() {
    let checked: Vec<_> = (0..=3).flat_map(|m| every_table(1, m)).map(|sketch| check(&sketch)).collect();
    assert_eq!(checked.len(), 4 + 8 + 16 + 32);
}

#[test]
fn every_table_of_two_states() {
    let checked: Vec<_> = (0..=2).flat_map(|m| every_table(2, m)).map(|sketch| check(&sketch)).collect();
    assert_eq!(checked.len(), 9 * (16 + 64 + 256));
}

#[test]
fn some_tables_of_three_states() {
    let mut lengths = [0; LONGEST + 1];
    let mut holds = 0;
    for number in 0..3_000 {
        let random = &mut Random::for_table(1, "three states", number);
        let mut sketch = Sketch::new(3, random.below(4));
        let (edge_chance, member_chance) = (random.pick(&[20, 40, 60]), random.pick(&[30, 70]));
        sketch.rows.iter_mut().for_each(|row| *row = random.states(3, edge_chance));
        sketch.finish(random);
        sketch.start = random.states(3, 50);
        sketch.goal = random.states(3, 10);
        sketch.sets.iter_mut().for_each(|set| *set = random.states(3, member_chance));
        match check(&sketch) {
            Some(k) => lengths[k] += 1,
            None => holds += 1,
        }
    }
    assert!(
        holds > 100 && lengths[..4].iter().all(|&count| count > 0),
        "{holds} hold, lengths {lengths:?}"
    );
}

/// Up to six states and four sets with few edges, where loops go through a state more than once.
#[test]
fn some_tables_of_more_states() {
    let mut lengths = [0; 13];
    for number in 0..2_000 {
        let random = &mut Random::for_table(1, "more states", number);
        let n = random.between(4, 6);
        let mut sketch = Sketch::new(n, random.below(5));
        for s in 0..n {
            sketch.add(s, random.below(n));
        }
        for _ in 0..random.between(1, 3) {
            sketch.add(random.below(n), random.below(n));
        }
        sketch.start = 1 << random.below(n) | 1 << random.below(n);
        sketch.sets.iter_mut().for_each(|set| *set = 1 << random.below(n) | random.states(n, 10));
        if let Some(k) = check_with(&sketch, every_run, lengths.len() - 1) {
            lengths[k] += 1;
        }
    }
    assert!(lengths[..8].iter().all(|&count| count > 0), "lengths {lengths:?}");
}
