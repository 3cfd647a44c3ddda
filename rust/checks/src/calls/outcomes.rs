//! What calls come to: each by its name and its outcome.

use model::{Answer, Call, Erasure, Order, Reason, Reply, Said};

/// What each call can come to when it is carried out, and its refusals. The states
/// come to any number of partitions.
const OUTCOMES: [(&str, &[&str], &[u32]); 21] = [
    ("fields", &KINDS_AND_FLAGS, &[1, 7]),
    ("states", &[], &[1, 2]),
    ("why", &["available", "no slot", "all erased", "blank", "torn"], &[1, 2]),
    ("place", &["empty", "held", "waiting", "unsure"], &[]),
    ("write map", &["written"], &[16, 1]),
    ("READ", &["word"], &[1, 2, 7, 8]),
    ("WRITE", &["word", "done"], &[1, 2, 7, 8, 9, 10]),
    ("ZEROIZE", &["word", "withheld"], &[1, 2, 7, 8, 10]),
    ("erasure", &["erased"], &[1, 2, 7, 8, 10, 15]),
    ("cut erasure", &["cut", "erased"], &[1, 2, 7, 8, 10, 15]),
    ("restart", &["nothing"], &[]),
    ("engine reply", &["taken"], &[19]),
    ("make table", &["made"], &[2]),
    ("CLKC", &["clear"], &[1, 2, 4, 5, 6, 17]),
    ("KLOD", &["load"], &[1, 2, 4, 5, 6, 11, 12, 13, 17, 18]),
    ("KUNL", &["unload"], &[1, 2, 4, 5, 6, 14, 17, 18]),
    ("FERS", &["none"], &[1, 2, 4, 5, 6, 7, 8, 10, 17, 15]),
    ("FSTA", &["none"], &[1, 2, 4, 5, 6]),
    ("EHDL", &["none"], &[1, 2, 4, 5, 6, 17]),
    ("RHPK", &["none"], &[1, 2, 4, 5, 6, 17, 20, 21]),
    ("other", &[], &[1, 2, 3]),
];

/// The kinds and flags that a partition of a good map can have.
const KINDS_AND_FLAGS: [&str; 12] =
    ["0/0", "0/1", "0/2", "0/3", "0/7", "0/9", "0/11", "0/15", "1/0", "1/1", "1/9", "2/0"];

/// Every outcome of every call.
pub fn outcomes() -> Vec<String> {
    let mut keys: Vec<String> = (1..=16).map(|count| format!("states {count}")).collect();
    for (name, carried_out, refusals) in OUTCOMES {
        keys.extend(carried_out.iter().map(|outcome| format!("{name} {outcome}")));
        keys.extend(refusals.iter().map(|number| format!("{name} refused {number}")));
    }
    keys
}

/// A call's name and what it came to.
pub fn came(call: &Call, said: Said) -> String {
    format!("{} {}", call.name(), outcome(said))
}

fn outcome(said: Said) -> String {
    if let Some(number) = said.refusal() {
        return format!("refused {number}");
    }
    match said {
        Said::Fields([.., kind, flags]) => return format!("{kind}/{flags}"),
        Said::Listing([_, partitions]) => return partitions.to_string(),
        Said::Reason(Ok(Reason::NoSlot)) => "no slot",
        Said::Reason(Ok(Reason::AllErased)) => "all erased",
        Said::Reason(Ok(Reason::Blank { .. })) => "blank",
        Said::Reason(Ok(Reason::Torn { .. })) => "torn",
        Said::Reason(_) => "available",
        Said::Place([0, _]) => "empty",
        Said::Place([1, _]) => "held",
        Said::Place([2, _]) => "waiting",
        Said::Place(_) => "unsure",
        Said::Written(_) => "written",
        Said::Answer(Answer::Word { .. }) => "word",
        Said::Answer(Answer::Done) => "done",
        Said::Answer(_) => "withheld",
        Said::Erasure(Erasure::Cut { .. }) => "cut",
        Said::Erasure(_) => "erased",
        Said::Reply(Reply::Accepted { order: Order::Clear { .. }, .. }) => "clear",
        Said::Reply(Reply::Accepted { order: Order::Load { .. }, .. }) => "load",
        Said::Reply(Reply::Accepted { order: Order::Unload { .. }, .. }) => "unload",
        Said::Reply(_) => "none",
        Said::Taken(_) => "taken",
        Said::Made(_) => "made",
        Said::Nothing => "nothing",
    }
    .to_string()
}
