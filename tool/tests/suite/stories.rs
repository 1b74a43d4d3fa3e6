//! What the comments of the three controllers say beyond their verdicts: the answer with fewer sets.
use crate::examples::verdict_of;
use crate::plain::Plain;
use crate::samples::{bytes, text};

/// The last lines of the verdict where only these sets are kept.
fn answer_with(name: &str, kept: &[usize]) -> String {
    let mut table = Plain::from_bytes(&bytes(name, "table"));
    let members: Vec<Vec<usize>> = (0..table.rows.len()).map(|state| table.members(state)).collect();
    for (mark, members) in table.marks.iter_mut().zip(members) {
        let sets: u8 = kept
            .iter()
            .enumerate()
            .filter(|(_, set)| members.contains(set))
            .map(|(number, _)| 4 << number)
            .sum();
        *mark = *mark & 3 | sets;
    }
    table.sets = kept.len();
    let verdict = verdict_of(&table.bytes());
    verdict.lines().skip(3).collect::<Vec<_>>().join(", ")
}

#[test]
fn without_its_sets_the_bridge_has_another_lasso() {
    assert_eq!(answer_with("bridge", &[0, 1]), "lasso 3 2, run 0 3 5 6");
    assert_eq!(answer_with("bridge", &[]), "lasso 1 1, run 0 1");
    assert_eq!(answer_with("bridge", &[0]), "lasso 1 1, run 0 3");
}

#[test]
fn the_fair_arbiter_needs_both_sets() {
    assert_eq!(answer_with("fair-arbiter", &[0, 1]), "holds");
    assert_eq!(answer_with("fair-arbiter", &[1]), "lasso 3 3, run 0 1 8 11");
    assert_eq!(answer_with("fair-arbiter", &[0]), "lasso 0 0, run 0");
}

/// The comments give the verdict's last two lines, indented.
#[test]
fn the_comments_give_the_verdict() {
    for name in ["starving-arbiter", "bridge"] {
        let verdict = text(name, "verdict");
        let lines: Vec<&str> = verdict.lines().skip(3).collect();
        let quoted = format!("#     {}\n#     {}\n", lines[0], lines[1]);
        assert!(text(name, "txt").contains(&quoted), "{name}");
    }
    assert!(text("fair-arbiter", "txt").contains("The goal holds"));
    assert!(text("fair-arbiter", "verdict").ends_with("\nholds\n"));
}
