//! Document 01, "The map of the fuses": every rule an image must keep, with that of P7 of document
//! 02.

use super::fields::{Entry, Header, HARDWARE, LIFE_CYCLE, OLDER_GUIDE, SECRET, SLOT, ZEROIZABLE};

/// One list for the rules: the document's words, the rule's name, and the test
/// whether it holds of an image with this header and these entries.
macro_rules! rules {
    (
        ($image:ident, $header:ident, $entries:ident)
        $($(#[$words:meta])* $name:ident => $test:expr,)*
    ) => {
        /// "The map of the fuses": its rules, in the order of its sentences.
        #[derive(Clone, Copy, Debug, PartialEq, Eq)]
        pub enum Rule { $($(#[$words])* $name,)* }

        impl Rule {
            /// "The map of the fuses": all rules, in the order of its sentences.
            pub const ALL: [Rule; 21] = [$(Rule::$name,)*];

            fn holds(self, $image: &[u8], $header: &Header, $entries: &[Entry]) -> bool {
                match self { $(Rule::$name => $test,)* }
            }
        }
    };
}

rules! {
    (image, header, entries)
    /// "partition count P (1..16)"
    PartitionCount => (1..=16).contains(&header.partitions),
    /// "cell count C (4..2,048)"
    CellCount => (4..=2048).contains(&header.cells),
    /// "bound B (33..64)"
    Bound => (33..=64).contains(&header.bound),
    /// "offset E of the entries (8..128)"
    EntriesOffset => (8..=128).contains(&header.entries_at),
    /// "Bytes 8 up to E are zero."
    Filler => image.iter().take(header.entries_at.into()).skip(8).all(|byte| *byte == 0),
    /// "The image is exactly E + 8P long."
    Length => image.len() == usize::from(header.entries_at) + 8 * usize::from(header.partitions),
    /// "u8 kind (0 hardware, 1 software, 2 life cycle)"
    Kind => every(entries, |e| e.kind <= LIFE_CYCLE),
    /// "u8 flags (...; higher bits zero)", flag 8 being a flag since P7
    HigherFlags => every(entries, |e| e.flags & !(ZEROIZABLE | SECRET | SLOT | OLDER_GUIDE) == 0),
    /// "two zero bytes"
    EntryZeros => every(entries, |e| e.zeros == [0, 0]),
    /// "First and n are even", the first half of it
    FirstEven => every(entries, |e| e.first % 2 == 0),
    /// "First and n are even", the second half of it
    CellsEven => every(entries, |e| e.n % 2 == 0),
    /// "n is at least 4"
    AtLeastFour => every(entries, |e| e.n >= 4),
    /// "at least 6 if zeroizable"
    AtLeastSixIfZeroizable => every(entries, |e| !e.zeroizable() || e.n >= 6),
    /// "Entries ascend"
    Ascending => entries.windows(2).all(|e| e[0].first < e[1].first),
    /// "without overlap"
    NoOverlap => no_overlap(entries),
    /// "and end by C"
    EndByC => entries.iter().all(|e| e.range().end <= header.cells.into()),
    /// "Life cycle is never zeroizable"
    LifeCycleNotZeroizable => every(entries, |e| e.kind != LIFE_CYCLE || !e.zeroizable()),
    /// "Secret needs kind 0"
    SecretIsHardware => every(entries, |e| !e.secret() || e.kind == HARDWARE),
    /// "a slot must be zeroizable"
    SlotIsZeroizable => every(entries, |e| !e.slot() || e.zeroizable()),
    /// "and secret"
    SlotIsSecret => every(entries, |e| !e.slot() || e.secret()),
    /// P7: "1 for flag 8 exactly on a partition that is not zeroizable"
    OlderGuideIsZeroizable => every(entries, |e| !e.older_guide() || e.zeroizable()),
}

/// "The map of the fuses": every rule the image breaks, in the order of
/// `Rule::ALL`; a good image breaks none. An image too short for a header is
/// not E + 8P long for any E and P in range, and nothing else can be said of it.
pub fn broken_rules(image: &[u8]) -> Vec<Rule> {
    let header = match Header::read(image) {
        Some(header) => header,
        None => return vec![Rule::Length],
    };
    let entries = Entry::read_all(image, &header);
    let broken = |rule: &Rule| !rule.holds(image, &header, &entries);
    Rule::ALL.into_iter().filter(broken).collect()
}

fn every(entries: &[Entry], rule: fn(&Entry) -> bool) -> bool {
    entries.iter().all(rule)
}

/// "without overlap": no cell lies in two partitions, whatever their order.
fn no_overlap(entries: &[Entry]) -> bool {
    entries.iter().enumerate().all(|(i, a)| {
        let (a, later) = (a.range(), &entries[i + 1..]);
        later.iter().map(Entry::range).all(|b| a.end <= b.start || b.end <= a.start)
    })
}
