//! The parts of the caller's buffers that a job uses: docs/RULES.md, "Refusal list", lines 9 to 11, and the header of "Translated table".

use super::parts::{refused, Parts};
use lasso::Refusal;

/// The first 2S words of the workspace and the first S of the report.
pub fn for_search<'b>(parts: &Parts, workspace: &'b mut [u32], report: &'b mut [u32]) -> Result<(&'b mut [u32], &'b mut [u32]), Refusal> {
    let slots = parts.slots();
    let Some(workspace) = workspace.get_mut(..2 * slots) else {
        return refused(9, 0);
    };
    let Some(report) = report.get_mut(..slots) else { return refused(10, 0) };
    Ok((workspace, report))
}

/// The three sections of the translated table.
pub struct Sections<'b> {
    pub starts: &'b mut [[u8; 4]],
    pub targets: &'b mut [[u8; 4]],
    pub marks: &'b mut [u8],
}

/// Writes the header and gives the sections after it.
pub fn for_translation<'b>(parts: &Parts, output: &'b mut [u8]) -> Result<Sections<'b>, Refusal> {
    let Some(output) = output.get_mut(..parts.translated_bytes()) else {
        return refused(11, 0);
    };
    let (header, rest) = output.split_at_mut(28);
    let (starts, rest) = rest.split_at_mut(4 * (parts.slots() + 1));
    let (targets, marks) = rest.split_at_mut(4 * parts.slot_edges());
    write_header(parts, header.as_chunks_mut().0);
    Ok(Sections {
        starts: starts.as_chunks_mut().0,
        targets: targets.as_chunks_mut().0,
        marks,
    })
}

fn write_header(parts: &Parts, header: &mut [[u8; 4]]) {
    let (slots, edges) = (parts.slots() as u32, parts.slot_edges() as u32);
    let numbers = [2, slots, edges, 0, 28, 32 + 4 * slots, 32 + 4 * slots + 4 * edges];
    for (word, number) in header.iter_mut().zip(numbers) {
        *word = number.to_le_bytes();
    }
}
