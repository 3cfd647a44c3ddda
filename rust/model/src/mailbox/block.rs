//! Document 01, "Active slot and key cache": the engine block.

/// "The engine block is 128 bytes"
pub const BLOCK_BYTES: usize = 128;

/// "Mailbox", engine of KLOD: "MEK, METD = tag in 8 bytes then zeros, AUX zero",
/// with "MEK 00h to 3Fh, METD 40h to 5Fh". As every number of the mailbox, the
/// tag is little-endian.
pub(super) fn load(mek: &[u8], tag: u64) -> Vec<u8> {
    let mut block = vec![0; BLOCK_BYTES];
    block[..0x40].copy_from_slice(mek);
    block[0x40..0x48].copy_from_slice(&tag.to_le_bytes());
    block
}
