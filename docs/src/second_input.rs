//! Standard input, as the second programs take it.

use std::io::Read;

/// Enough to judge any table file.
pub const FILE_LOOKED_AT: u64 = 5_124;

/// Standard input, up to `most` bytes; a failing read leaves what came before it, and that is judged.
pub fn input(most: u64) -> Vec<u8> {
    let mut bytes = Vec::new();
    let _ = std::io::stdin().take(most).read_to_end(&mut bytes);
    bytes
}
