//! Table files that the library refuses: number, place and words, status 2. Reads docs/RULES.md, "Refusal list".
use crate::command::assert_fails;
use crate::samples::bytes;

/// Table a with the number at this offset put in the place of the old one.
fn table_a_with(offset: usize, number: u32) -> Vec<u8> {
    let mut bytes = bytes("a", "table");
    bytes[offset..offset + 4].copy_from_slice(&number.to_le_bytes());
    bytes
}

fn assert_refused(table: &[u8], line: &str) {
    for command in ["show", "picture"] {
        assert_fails(&[command, "-"], table, &format!("standard input: {line}"));
    }
}

#[test]
fn each_line_of_the_list() {
    let a = bytes("a", "table");
    assert_refused(&a[..27], "refused 1 0: fewer than 28 bytes");
    assert_refused(&table_a_with(0, 2), "refused 2 0: kind is not 1");
    for number in [0, 65, u32::MAX] {
        assert_refused(&table_a_with(4, number), "refused 3 0: n, the number of states, is outside 1 to 64");
    }
    for number in [0, 1025, u32::MAX] {
        assert_refused(&table_a_with(8, number), "refused 14 0: e, the number of edges, is outside 1 to 1,024");
    }
    for number in [5, u32::MAX] {
        assert_refused(&table_a_with(12, number), "refused 15 0: m, the number of fairness sets, is above 4");
    }
    let layout = "refused 4 0: an offset or the length is not the computed one";
    assert_refused(&table_a_with(16, 32), layout);
    assert_refused(&[&a[..], &[0]].concat(), layout);
    assert_refused(&a[..a.len() - 1], layout);
    // Row starts of a stand at 28: 0 2 4 6 8. Its targets stand at 48: 0 1, 1 2, 2 3, 0 3.
    let row_start = "a row start is wrong: first not 0, below the one before, above e, or last not e; first such index";
    assert_refused(&table_a_with(28, 1), &format!("refused 5 0: {row_start} 0"));
    assert_refused(&table_a_with(40, 1), &format!("refused 5 3: {row_start} 3"));
    let target = "a target is n or more, or not above the one before it in its row; first such index";
    assert_refused(&table_a_with(56, 4), &format!("refused 6 2: {target} 2"));
    assert_refused(&table_a_with(72, 3), &format!("refused 6 7: {target} 7"));
    // State 1 has lost its row to state 2, whose row is now 1 2 2 3. Line 6 comes before line 7.
    assert_refused(&table_a_with(36, 2), &format!("refused 6 4: {target} 4"));
    let mut mark = a.clone();
    *mark.last_mut().unwrap() |= 64;
    assert_refused(&mark, "refused 8 3: a mark bit that must be clear is set; first such state 3");
}

#[test]
fn an_empty_row() {
    // Row starts of b: 0 1 2 3 4; targets 1 2 3 0. State 0 loses its target to state 1, whose row 1 2 rises.
    let mut table = bytes("b", "table");
    table[32..36].copy_from_slice(&0u32.to_le_bytes());
    assert_refused(&table, "refused 7 0: an empty row; first such state 0");
}

#[test]
fn show_of_a_text_is_refused() {
    assert_fails(&["show", "-"], &bytes("j", "txt"), "standard input: refused 2 0: kind is not 1");
    assert_fails(&["show", "-"], b"state 0 -> 0\n", "standard input: refused 1 0: fewer than 28 bytes");
}
