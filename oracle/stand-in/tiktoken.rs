// Stands in for the module of this name, of which only the type is wanted. As a child of `bpe` it sees what is private there,
// and hands that out to the oracle.
use super::{ByteRemapping, PairRankTable};

pub struct Tokenizer;

// The original's test of a byte.
pub(crate) fn utf8_byte(b: u8) -> bool {
    super::is_valid_utf8_byte(b)
}

// The ids of the original's byte map.
pub(crate) fn ids_of(map: &ByteRemapping) -> Vec<u32> {
    map.mapping.iter().map(|id| id.0).collect()
}

// The original's table over lent slots. Its grid is of one cell, for the pair of 0 and 0, which it always takes from the grid.
pub(crate) fn table_over(slots: Vec<u64>, of_zeros: u32) -> PairRankTable {
    let n = slots.len();
    PairRankTable {
        dense: vec![of_zeros].into_boxed_slice(),
        dense_log2: 0,
        slots: slots.into_boxed_slice(),
        mask: n - 1,
        shift: 64 - n.trailing_zeros(),
    }
}

// A table's slots, which end the loan.
pub(crate) fn slots_of(table: PairRankTable) -> Vec<u64> {
    table.slots.into_vec()
}

// A table's slots, mask and shift.
pub(crate) fn parts_of(table: &PairRankTable) -> (Vec<u64>, usize, u32) {
    (table.slots.to_vec(), table.mask, table.shift)
}
