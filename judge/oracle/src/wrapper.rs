//! The 31 bytes of a wrapper, for hosts that send one.

#[derive(Clone)]
pub struct Wrapper {
    pub signature: [u8; 4],
    pub tag: u32,
    pub length: u32,
    pub flags: u8,
    pub lun: u8,
    pub block_length: u8,
    pub block: [u8; 16],
}

impl Wrapper {
    /// A good wrapper for the block, without data; bytes after the block are 0.
    pub fn new(tag: u32, block: &[u8]) -> Wrapper {
        let mut whole = [0; 16];
        whole[..block.len()].copy_from_slice(block);
        Wrapper {
            signature: *b"USBC",
            tag,
            length: 0,
            flags: 0,
            lun: 0,
            block_length: block.len() as u8,
            block: whole,
        }
    }

    pub fn with_data_in(self, length: u32) -> Wrapper {
        Wrapper {
            length,
            flags: 0x80,
            ..self
        }
    }

    pub fn with_data_out(self, length: u32) -> Wrapper {
        Wrapper {
            length,
            flags: 0,
            ..self
        }
    }

    pub fn bytes(&self) -> Vec<u8> {
        [
            &self.signature[..],
            &self.tag.to_le_bytes(),
            &self.length.to_le_bytes(),
            &[self.flags, self.lun, self.block_length],
            &self.block,
        ]
        .concat()
    }
}
