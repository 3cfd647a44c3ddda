//! Document 01, "Mailbox": the sums of requests and responses.

/// "Mailbox": "a request's chksum is 0 minus the sum of the four code bytes and
/// every request byte after chksum, wrapping in 32 bits".
pub fn request_chksum(code: u32, request: &[u8]) -> u32 {
    response_chksum(request).wrapping_sub(sum(&code.to_le_bytes()))
}

/// "Mailbox": "a response's is the same without the code".
pub fn response_chksum(response: &[u8]) -> u32 {
    0_u32.wrapping_sub(sum(response.get(4..).unwrap_or(&[])))
}

/// Sets a message's chksum, which is its first field.
pub fn put_chksum(message: &mut [u8], chksum: u32) {
    message[..4].copy_from_slice(&chksum.to_le_bytes());
}

fn sum(bytes: &[u8]) -> u32 {
    bytes.iter().fold(0, |sum, byte| sum.wrapping_add(u32::from(*byte)))
}
