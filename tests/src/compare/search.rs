//! Compares search: its answer, the report and the workspace, with buffers of many lengths ("Refusal list", lines 9 and 10 and the last paragraph).

use super::bench::{Bench, Stop};
use super::case::Case;
use super::lent::{words, Lent};
use super::library;
use super::table::Depth;
use crate::draw::random::Random;
use crate::independent::definition::Lasso;
use crate::independent::lengths::search_refused;
use crate::independent::quote::Quote;
use crate::independent::refusal::Refusal;

/// Words lent beyond what is needed, at most.
const BEYOND: usize = 3;
/// Up to this S, all pairs of lengths are tried in a sweep.
const ALL_PAIRS_UP_TO: usize = 40;

struct Search<'a> {
    quote: &'a Quote,
    workspace: Lent<u32>,
    report: Lent<u32>,
    zeros: Vec<u32>,
    lasso: Option<&'a Lasso>,
    states: Vec<u32>,
}

pub fn compare(bench: &mut Bench, case: &Case, random: &mut Random, quote: &Quote, lasso: Option<&Lasso>, depth: Depth) -> Result<(), Stop> {
    let mut search = Search {
        quote,
        workspace: words(random, 2 * quote.slots + BEYOND),
        report: words(random, quote.slots + BEYOND),
        zeros: vec![0; 2 * quote.slots],
        lasso,
        states: lasso.map_or(Vec::new(), |lasso| lasso.states.iter().map(|&s| s as u32).collect()),
    };
    for (workspace, report) in lengths(random, quote.slots, depth) {
        search.once(bench, case, workspace, report)?;
    }
    Ok(())
}

fn lengths(random: &mut Random, slots: usize, depth: Depth) -> Vec<(usize, usize)> {
    let (most_workspace, most_report) = (2 * slots + BEYOND, slots + BEYOND);
    let about_workspace = 2 * slots - 1..=2 * slots + 1;
    let about_report = slots - 1..=slots + 1;
    match depth {
        Depth::Sweep if slots <= ALL_PAIRS_UP_TO => (0..=most_workspace).flat_map(|w| (0..=most_report).map(move |r| (w, r))).collect(),
        Depth::Sweep => {
            let workspaces = (0..=most_workspace).flat_map(|w| about_report.clone().map(move |r| (w, r)));
            let reports = (0..=most_report).flat_map(|r| about_workspace.clone().map(move |w| (w, r)));
            workspaces.chain(reports).collect()
        }
        Depth::Sample => {
            let mut pairs: Vec<(usize, usize)> = about_workspace.flat_map(|w| about_report.clone().map(move |r| (w, r))).collect();
            pairs.extend([(0, 0), (0, slots), (2 * slots, 0), (most_workspace, most_report)]);
            pairs.extend((0..2).map(|_| (random.between(0, most_workspace), random.between(0, most_report))));
            pairs
        }
        Depth::Few => {
            let enough = (random.between(2 * slots, most_workspace), random.between(slots, most_report));
            vec![
                enough,
                (2 * slots - 1, slots),
                (2 * slots, slots - 1),
                (random.below(2 * slots), random.below(slots)),
            ]
        }
    }
}

impl Search<'_> {
    fn once(&mut self, bench: &mut Bench, case: &Case, workspace: usize, report: usize) -> Result<(), Stop> {
        let answer = library::search(case.table, self.workspace.lend(workspace), self.report.lend(report));
        let refused = search_refused(self.quote, workspace, report);
        let expected = match refused {
            Some(refused) => Err(refused.refusal),
            None => Ok(self.lasso.map(|lasso| (lasso.states.len() - 1, lasso.l))),
        };
        let (zeros, states) = if refused.is_none() {
            (&self.zeros[..], &self.states[..])
        } else {
            Default::default()
        };
        bench.agree(
            case,
            format_args!("search with {workspace} workspace and {report} report words"),
            &answer,
            &expected,
        )?;
        let wrong = self.workspace.take_back(zeros);
        bench.agree(
            case,
            format_args!("first wrong word of {workspace} workspace words, with {report} report words"),
            &wrong,
            &None,
        )?;
        let wrong = self.report.take_back(states);
        bench.agree(
            case,
            format_args!("first wrong word of {report} report words, with {workspace} workspace words"),
            &wrong,
            &None,
        )?;
        refused.into_iter().for_each(|refused| bench.tally.refused(refused));
        Ok(())
    }
}

/// On a table that is refused, nothing may change, whatever the lengths.
pub fn compare_refused(bench: &mut Bench, case: &Case, random: &mut Random, refusal: Refusal) -> Result<(), Stop> {
    let (longest_workspace, longest_report) = (random.pick(&[0, 7, 300]), random.pick(&[0, 7, 150]));
    let (mut workspace, mut report) = (words(random, longest_workspace), words(random, longest_report));
    let answer = library::search(case.table, workspace.lend(longest_workspace), report.lend(longest_report));
    bench.agree(
        case,
        format_args!("search with {longest_workspace} workspace and {longest_report} report words"),
        &answer,
        &Err(refusal),
    )?;
    bench.agree(
        case,
        format_args!("first wrong word of {longest_workspace} workspace words"),
        &workspace.take_back(&[]),
        &None,
    )?;
    bench.agree(
        case,
        format_args!("first wrong word of {longest_report} report words"),
        &report.take_back(&[]),
        &None,
    )
}
