//! Old files, which have sizes of one byte, in the layout of all other files.

use super::model::{Layout, Model};
use super::Refusal;

/// Writes an old file that its check accepts in the new layout; gives its new length in bytes.
pub fn rewrite(old: &[u8], out: &mut [u8]) -> Result<usize, Refusal> {
    let sizes = Model::parse_in(&Layout::BYTE, old)?.sizes;
    let length = Layout::WIDE.length(sizes.nodes);
    let cells = out.get_mut(..length).ok_or(Refusal::ShortMarks)?;
    let (header, nodes) = cells.split_at_mut(Layout::WIDE.header());
    Layout::WIDE.write_sizes(sizes, header);
    nodes.copy_from_slice(&old[Layout::BYTE.header()..]);
    Ok(length)
}
