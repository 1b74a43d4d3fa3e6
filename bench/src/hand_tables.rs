//! Tests of all sides by docs/RULES.md, "Tables by hand", and of their searches against each other.

use crate::random::Random;
use crate::sides::{Side, SIDES};
use crate::tables::{damaged, drawn, hand, holding, lassos};
use lasso::{Found, Refusal};

#[test]
fn sizes_and_lassos() {
    for (letter, sketch, lasso, [slots, edges, bytes]) in hand::all() {
        let table = sketch.bytes();
        for Side { name, quote, search, .. } in SIDES {
            let sheet = quote(&table).unwrap();
            assert_eq!(
                (sheet.slots, sheet.edges, sheet.bytes, sheet.board),
                (slots, edges, bytes, 0),
                "{name} {letter}"
            );
            let mut report = vec![7; slots];
            let found = search(&table, &mut vec![9; 2 * slots], &mut report).unwrap();
            let expected = lasso.as_ref().map_or(Found::Holds, |&(k, l, _)| Found::Lasso { k, l });
            assert_eq!(found, expected, "{name} {letter}");
            let run = lasso.as_ref().map_or(&[][..], |(_, _, run)| run);
            assert_eq!(report[..run.len()], *run, "{name} {letter}");
            assert!(report[run.len()..].iter().all(|&word| word == 7), "{name} {letter}");
        }
    }
}

#[test]
fn translation_of_c() {
    let (_, sketch, ..) = hand::all().swap_remove(2);
    let words = [2, 4, 6, 0, 28, 48, 72, 0, 1, 2, 4, 6, 0, 1, 0, 2, 1, 3].map(u32::to_le_bytes).concat();
    for Side { name, translate, .. } in SIDES {
        let mut output = [255; 80];
        assert_eq!(translate(&sketch.bytes(), &mut output), Ok(76), "{name}");
        assert_eq!(output[..72], words, "{name}");
        assert_eq!(output[72..], [64, 0, 1, 0, 255, 255, 255, 255], "{name}");
    }
}

#[test]
fn boards_b_and_c() {
    let random = &mut Random::seeded(1);
    for (e, edges, board) in [(32, 1024, 1), (33, 1056, 2)] {
        let table = drawn::edges_only(random, 6, e, 1).bytes();
        for Side { name, quote, .. } in SIDES {
            let sheet = quote(&table).unwrap();
            assert_eq!((sheet.slots, sheet.edges, sheet.board), (168, edges, board), "{name}");
        }
    }
}

#[test]
fn members_are_counted() {
    let sketch = drawn::edges_only(&mut Random::seeded(4), 8, 16, 3);
    let table = sketch.members(0, &[0, 1, 7]).members(2, &[1, 2, 3, 4, 5]).bytes();
    for Side { name, quote, .. } in SIDES {
        assert_eq!(quote(&table).unwrap().members, [3, 0, 5, 0], "{name}");
    }
}

#[test]
fn refusals_by_length_of_buffers() {
    let table = hand::a().bytes();
    let refusal = |number| Refusal { number, place: 0 };
    for side in SIDES {
        assert_eq!((side.open)(&table[..27]), Err(refusal(1)), "{}", side.name);
        assert_eq!((side.search)(&table, &mut [0; 79], &mut [0; 39]), Err(refusal(9)), "{}", side.name);
        assert_eq!((side.search)(&table, &mut [0; 80], &mut [0; 39]), Err(refusal(10)), "{}", side.name);
        assert_eq!((side.translate)(&table, &mut [0; 615]), Err(refusal(11)), "{}", side.name);
    }
}

#[test]
fn refusals_by_bytes() {
    // Row starts stand at 28, targets at 48, marks at 80.
    for (changes, number, place) in [
        (&[(0, 2)][..], 2, 0),
        (&[(4, 65)], 3, 0),
        (&[(8, 0)], 14, 0),
        (&[(12, 5)], 15, 0),
        // The first in the list's order, not the lowest number.
        (&[(4, 65), (8, 0), (12, 5)], 3, 0),
        (&[(8, 0), (12, 5), (16, 29)], 14, 0),
        (&[(16, 29)], 4, 0),
        (&[(28, 1)], 5, 0),
        (&[(36, 1)], 5, 2),
        (&[(36, 9)], 5, 2),
        (&[(44, 9)], 5, 4),
        (&[(52, 0)], 6, 1),
        (&[(52, 4)], 6, 1),
        (&[(76, 4)], 6, 7),
        // State 1 gives its row to state 2, where the targets 1, 2, 2, 3 do not rise.
        (&[(36, 2)], 6, 4),
        // The same with the targets 1, 2, 3, and state 3 has 0, 2, 3.
        (&[(36, 2), (40, 5), (64, 3), (68, 0), (72, 2), (76, 3)], 7, 1),
        (&[(80, 64)], 8, 0),
        (&[(83, 4)], 8, 3),
    ] {
        let mut table = hand::a().bytes();
        changes.iter().for_each(|&(at, byte)| table[at] = byte);
        for Side { name, open, .. } in SIDES {
            assert_eq!(open(&table), Err(Refusal { number, place }), "{name} {changes:?}");
        }
    }
}

#[test]
fn searches_agree() {
    let random = &mut Random::seeded(2);
    let mut lassos_found = 0;
    for _ in 0..2000 {
        let most = if random.percent(5) { 24 } else { 7 };
        let mut table = drawn::any(random, most).bytes();
        if random.percent(10) {
            table = damaged::anyhow(random, table);
        }
        lassos_found += usize::from(agreed(&table));
    }
    assert!((200..1800).contains(&lassos_found), "{lassos_found}");
}

#[test]
fn measured_tables_are_what_they_say() {
    let random = &mut Random::seeded(3);
    for (n, e, m) in [(8, 24, 2), (16, 64, 3), (32, 128, 4)] {
        assert!(!agreed(&holding::empty_set(random, n, e, m).bytes()));
        assert!(!agreed(&holding::set_before_loops(random, n, e, m).bytes()));
        assert!(!agreed(&holding::goal_on_loops(random, n, e, m).bytes()));
        assert!(agreed(&lassos::at_once(random, n, e, m).bytes()));
        assert!(agreed(&lassos::late(random, n, e, m).bytes()));
    }
    assert!(agreed(&lassos::at_end_of_chain(8).bytes()));
}

/// Compares the searches of all sides, workspace and report with them, and tells whether they found a lasso.
fn agreed(table: &[u8]) -> bool {
    let slots = lasso::quote(table).map_or(10, |sheet| sheet.slots);
    let results = SIDES.map(|side| {
        let (mut workspace, mut report) = (vec![5; 2 * slots + 1], vec![6; slots + 1]);
        let found = (side.search)(table, &mut workspace, &mut report);
        if found.is_ok() {
            assert!(workspace[..2 * slots].iter().all(|&word| word == 0), "{}", side.name);
        }
        (found, workspace, report)
    });
    assert_eq!(results[0], results[1]);
    assert_eq!(results[0], results[2]);
    matches!(results[0].0, Ok(Found::Lasso { .. }))
}
