//! The pairs of refusals that can apply to one call. Any other pair cannot, since no call has both:
//! - 19 is the engine's reply's alone; 16 is with 1 the written map's; 9 is WRITE's, which is no
//!   mailbox command; 3 to 6, 11 to 14, 17, 18, 20 and 21 are the mailbox's;
//! - of its commands FERS has 7, 8, 10 and 15, KLOD 11 to 13, KUNL 14, these two 18, RHPK 20 and
//!   21, and all but FSTA 17;
//!
//! or since one leaves nothing that the other could ask for:
//! - 1 no partition, word or slot for 7 to 11 and 15; 3 no command for 4 and what follows 6; 7
//!   nothing to touch for 8, 9, 10 and 15;
//! - an erasure's 8 no indicator for 15.

/// Each refusal with those that can apply to the same call and are checked after it.
const PAIRS: [(u32, &[u32]); 17] = [
    (16, &[1]),
    (1, &[2, 3, 4, 5, 6, 12, 13, 14, 17, 18, 20, 21]),
    (2, &[3, 4, 5, 6, 7, 8, 9, 10, 11, 12, 13, 14, 17, 18, 20, 21, 15]),
    (3, &[5, 6]),
    (4, &[5, 6, 7, 8, 10, 11, 12, 13, 14, 17, 18, 20, 21, 15]),
    (5, &[6, 7, 8, 10, 11, 12, 13, 14, 17, 18, 20, 21, 15]),
    (6, &[7, 8, 10, 11, 12, 13, 14, 17, 18, 20, 21, 15]),
    (7, &[17]),
    (8, &[9, 10, 17]),
    (9, &[10]),
    (10, &[17, 15]),
    (11, &[12, 13, 17, 18]),
    (12, &[13, 17, 18]),
    (13, &[17, 18]),
    (14, &[17, 18]),
    (17, &[18, 20, 21, 15]),
    (20, &[21]),
];

/// The keys of all of them.
pub fn possible() -> impl Iterator<Item = String> {
    PAIRS.into_iter().flat_map(|(first, later)| later.iter().map(move |other| key(first, *other)))
}

/// The key of a pair, the one that is checked first before the other.
pub fn key(first: u32, later: u32) -> String {
    format!("{first}+{later}")
}
