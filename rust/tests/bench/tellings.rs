//! Extended addressing off and on.

use super::{Checked, require};
use souklavanh::{EmptyBlock, ScsiCommand, decode, decode_told};

/// What the decoder that is told says of a block. The plain one has extended addressing on.
pub fn decoded(block: &[u8], extended: bool) -> Checked<Result<ScsiCommand, EmptyBlock>> {
    let [off, on] = [false, true].map(|extended| decode_told(block, extended));
    require(
        decode(block) == on,
        "the plain decoder does not say what the told one says with extended addressing on",
    )?;
    require(
        (off != on) == depends(block),
        "extended addressing counts for another block than 88 and 8A with 14 bytes",
    )?;
    Ok(if extended { on } else { off })
}

/// Whether the command depends on extended addressing: READ (16) and WRITE (16), if they are long enough.
pub fn depends(block: &[u8]) -> bool {
    block.len() >= 14 && matches!(block[0], 0x88 | 0x8A)
}
