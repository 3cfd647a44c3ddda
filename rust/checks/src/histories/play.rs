//! A history played on a key block, and what is to be met in the attempts of
//! generated histories, so that a clause which is no longer asked for anything,
//! or a generator which has become trivial, is noticed.

use super::{clauses, Attempt, History};
use crate::calls::unlike_model;
use crate::layout::{is_burned_in_part, is_stuck, ones, would_burn, Layout};
use crate::proved::Proved;
use crate::tally::{self, Row, Tally};
use model::{Call, Cut, Erase, KeyBlock, Lent, Said};
use std::collections::BTreeSet;
use std::ops::Range;

/// An attempt as it was played.
pub struct Step<'a> {
    /// The history, whose start every clause looks back to.
    pub history: &'a History,
    /// The partition in the map, if map and lengths are right and it is there.
    pub partition: Option<Layout>,
    pub call: &'a Call,
    /// "each call gets the cells and cache that the one before left"
    pub before: Lent,
    pub said: Said,
    pub after: Lent,
    /// The cut, if the attempt was cut, by the call and the order of burns; of
    /// what it said only a refusal counts.
    pub cut: Option<Cut>,
    /// Of an uncut attempt: what "the same call, same request and buffer lengths, made alone from
    /// the starting cells and an empty cache", with the starting table, says and leaves.
    pub alone: Option<(Said, Lent)>,
    /// Whether the attempt was accepted and ran uncut to its end: one that is
    /// neither refused nor cut has to have.
    pub completes: bool,
    /// What the attempts before this one did.
    pub past: Past,
}

/// What some attempt has done.
pub struct Past {
    pub cut: bool,
    pub torn: bool,
    pub completed: bool,
    /// The sum of the new fuses that were reported.
    pub reported: u64,
}

/// The refusals that an attempt can get; 10 and 17 are none, since every place stays
/// empty, and no reply is ever awaited.
const REFUSALS: [u32; 8] = [1, 2, 4, 5, 6, 7, 8, 15];

type Sight = fn(&Step) -> bool;

/// Things that are to happen though no clause names them.
const SIGHTS: &[Row<Sight>] = &[
    ("ended by the library's call", |s| s.completes && s.call.name() == "erasure"),
    ("ended by FERS", |s| s.completes && s.call.name() == "FERS"),
    ("ended by a cut past the end", |s| s.completes && s.call.name() == "cut erasure"),
    ("ended with the indicator at B", |s| s.completes && s.past_bound() == Some(0)),
    ("ended with the indicator at B - 1", |s| s.completes && s.past_bound() == Some(-1)),
    ("ended with no fuse of the indicator stuck", |s| s.completes && s.stuck() == 0),
    ("ended by one indicator fuse, which burned", |s| {
        s.completes && s.indicator_ones(s.start()) == 0 && s.indicator_ones(s.cells()) == 1
    }),
    ("ended, the indicator partly set at the start", |s| {
        s.completes && (1..64).contains(&s.indicator_ones(s.start()))
    }),
    ("ended by indicator fuses set at the start, every fuse of it stuck", |s| {
        s.completes && s.stuck() == 64
    }),
    ("ended erased, the indicator alone short", |s| {
        s.completes && s.leaves(Layout::erased) && s.leaves(Layout::weakly_marked)
    }),
    ("ended torn", |s| s.completes && s.leaves(Layout::torn)),
    ("ended torn, the indicator short too", |s| {
        s.completes && s.leaves(Layout::torn) && s.leaves(Layout::weakly_marked)
    }),
    ("ended after a cut", |s| s.completes && s.past.cut),
    ("ended after a cut that tore it", |s| s.completes && s.past.torn),
    ("ended again", |s| s.completes && s.past.completed),
    ("cut at the indicator", |s| s.cut_at(|k, _| k == 0)),
    ("cut at a data word", |s| s.cut_at(|k, digest| 0 < k && k < digest)),
    ("cut at the digest", |s| s.cut_at(|k, digest| k == digest)),
    ("cut that tore it", |s| s.cut.is_some() && s.tears()),
    ("cut that tore it by a part of the indicator", |s| {
        let cut = s.cut_at(|k, _| k == 0) && s.would_burn(Layout::indicator);
        cut && s.tears() && s.leaves(Layout::weakly_marked)
    }),
    ("cut at the indicator that left it unmarked", |s| {
        s.cut_at(|k, _| k == 0) && !s.leaves(Layout::marked)
    }),
    ("cut that set no fuse", |s| s.cut.is_some() && s.before.drive.cells == s.after.drive.cells),
    ("cut after it had ended", |s| s.cut.is_some() && s.past.completed),
    ("15 where every fuse of the indicator is stuck and others would burn", |s| {
        s.stopped() && s.stuck() == 64 && s.would_burn(|p| p.range.clone())
    }),
    ("15 by FERS", |s| s.stopped() && s.call.name() == "FERS"),
    ("15 of a cut", |s| s.stopped() && s.call.name() == "cut erasure"),
    ("15 after a cut", |s| s.stopped() && s.past.cut),
    ("refused up to 8 after a cut", |s| {
        s.past.cut && s.said.refusal().map_or(false, |number| number <= 8)
    }),
    ("restart after a cut", |s| s.past.cut && s.is_restart()),
    ("cut that set a part of a word", |s| s.burns_in_part()),
    ("cut that set a part of a word, some of its fuses stuck and some set before", |s| {
        s.burns_in_part() && s.named_word().map_or(false, |word| s.is_mixed(word))
    }),
    ("ended with new fuses, others stuck and others set at the start", |s| {
        let mixed = s.partition.as_ref().map_or(false, |p| s.is_mixed(p.range.clone()));
        s.completes && s.reported() > 0 && mixed
    }),
    ("ended with new fuses after a cut with some", |s| {
        s.completes && s.reported() > 0 && s.past.cut && s.past.reported > 0
    }),
    ("FERS ended with new fuses", |s| s.completes && s.reported() > 0 && s.call.name() == "FERS"),
    ("ended with no new fuse", |s| s.completes && s.reported() == 0),
    ("refused after new fuses", |s| s.past.reported > 0 && s.said.refusal().is_some()),
    ("restart after new fuses", |s| s.past.reported > 0 && s.is_restart()),
];

/// Everything that a run has to meet: each clause asked for something, each refusal, each sight.
pub fn possible() -> Vec<String> {
    let refusals = REFUSALS.into_iter().map(refused);
    tally::names(clauses::ALL).into_iter().chain(tally::names(SIGHTS)).chain(refusals).collect()
}

fn refused(number: u32) -> String {
    format!("refused with {number}")
}

impl Step<'_> {
    /// The keys of all that is met.
    pub fn met(&self) -> Vec<String> {
        let mut met = tally::that_hold(clauses::ALL, |clause| clause(self).is_some());
        met.extend(tally::that_hold(SIGHTS, |holds| holds(self)));
        met.extend(self.said.refusal().map(refused));
        met
    }

    /// The cells at the start of the history.
    pub fn start(&self) -> &[u32] {
        &self.history.start.cells
    }

    /// The cells as the attempt left them.
    pub fn cells(&self) -> &[u32] {
        &self.after.drive.cells
    }

    pub fn is_restart(&self) -> bool {
        matches!(self.call, Call::Restart)
    }

    fn leaves(&self, holds: fn(&Layout, &[u32]) -> bool) -> bool {
        self.partition.as_ref().map_or(false, |p| holds(p, self.cells()))
    }

    /// By how many ones the indicator passes the bound.
    fn past_bound(&self) -> Option<i64> {
        self.partition.as_ref().map(|p| p.past_bound(self.cells()))
    }

    /// The ones of the indicator in these cells, or in the marks; 0 without a partition.
    fn indicator_ones(&self, of: &[u32]) -> u32 {
        self.partition.as_ref().map_or(0, |p| p.indicator_ones(of))
    }

    /// The stuck fuses of the indicator.
    fn stuck(&self) -> u32 {
        self.indicator_ones(&self.history.start.marks)
    }

    fn stopped(&self) -> bool {
        self.said.refusal() == Some(15)
    }

    /// Whether some fuse of these cells is neither set nor stuck.
    fn would_burn(&self, of: fn(&Layout) -> Range<usize>) -> bool {
        self.partition.as_ref().map_or(false, |p| would_burn(&self.after.drive, of(p)))
    }

    /// The word that a cut was in.
    fn named_word(&self) -> Option<Range<usize>> {
        Some(self.partition.as_ref()?.order()[self.cut?.k as usize].clone())
    }

    fn burns_in_part(&self) -> bool {
        let drives = [&self.before.drive, &self.after.drive];
        self.named_word().map_or(false, |word| is_burned_in_part(drives, word))
    }

    /// Whether some fuse of these cells is stuck, and some was set at the start.
    fn is_mixed(&self, cells: Range<usize>) -> bool {
        is_stuck(&self.after.drive, cells.clone()) && ones(&self.start()[cells]) > 0
    }

    /// Whether this holds of a cut's k and of the number of the digest's burn.
    fn cut_at(&self, holds: fn(usize, usize) -> bool) -> bool {
        let at = self.partition.as_ref().zip(self.cut);
        at.map_or(false, |(p, cut)| holds(cut.k as usize, p.order().len() - 1))
    }

    /// Whether the attempt left the partition torn, and did not find it so.
    fn tears(&self) -> bool {
        let torn_before = |p: &Layout| p.torn(&self.before.drive.cells);
        self.leaves(Layout::torn) && !self.partition.as_ref().map_or(false, torn_before)
    }
}

/// Plays the histories numbered from 0 up to `count` on the proved key block, on all cores, and
/// fails the test where a clause does not hold or a call is not the model's.
pub fn all_hold(count: usize, history: impl Fn(usize) -> History + Sync) -> Tally {
    Tally::over(count, |tally, number| {
        let history = history(number);
        let steps = play(&history, &mut Proved);
        for (place, step) in steps.iter().enumerate() {
            let clause = clauses::broken(step).into_iter().next();
            let unlike_model = || unlike_model(&step.before, step.call, (step.said, &step.after));
            if let Some(found) = clause.or_else(unlike_model) {
                let call = step.call;
                panic!("history {number}, attempt {place}, {call}: {found}\n{history:X?}");
            }
        }
        tally.add(steps.iter().flat_map(Step::met));
    })
}

/// The clauses that do not hold somewhere in a history, whatever the model says.
pub fn broken_clauses(history: &History, block: &mut impl KeyBlock) -> BTreeSet<String> {
    play(history, block).iter().flat_map(clauses::broken).collect()
}

/// Plays the attempts one after the other.
fn play<'a>(history: &'a History, block: &mut impl KeyBlock) -> Vec<Step<'a>> {
    let whole = Layout::of(&history.start, history.partition);
    let mut left = history.lent();
    let mut steps: Vec<Step> = Vec::new();
    for attempt in &history.attempts {
        let call = &attempt.call;
        let before = lent(left, attempt);
        let mut after = before.clone();
        let said = block.answer(&mut after, call);
        let cut = cut(call, said, whole.as_ref());
        let uncut = cut.is_none() && !matches!(call, Call::Restart);
        let alone = uncut.then(|| alone(history, attempt, block));
        let completes = uncut && said.refusal().is_none();
        left = after.clone();
        let past = Past {
            cut: steps.iter().any(|step| step.cut.is_some()),
            torn: steps.iter().any(|step| step.cut.is_some() && step.tears()),
            completed: steps.iter().any(|step| step.completes),
            reported: steps.iter().map(Step::reported).sum(),
        };
        let partition = whole.clone();
        let step =
            Step { history, partition, call, before, said, after, cut, alone, completes, past };
        steps.push(step);
    }
    steps
}

/// "A cut erasure that is refused, or whose order ends before burn k, is uncut." Without a
/// partition there is no order. An attempt that names no cut is uncut too, whatever it says.
fn cut(call: &Call, said: Said, partition: Option<&Layout>) -> Option<Cut> {
    let named = match call {
        Call::Erase(Erase { cut, .. }) => cut.filter(|_| said.refusal().is_none())?,
        _ => return None,
    };
    let burns = partition.map_or(0, |partition| partition.order().len());
    ((named.k as usize) < burns).then_some(named)
}

/// What an attempt is lent: what the one before left, and buffers of its own.
fn lent(left: Lent, attempt: &Attempt) -> Lent {
    let (block, response) = attempt.buffers.clone();
    Lent { block, response, ..left }
}

/// The attempt made alone. Of the buffers only the lengths are the same, so
/// every byte of them is another one.
fn alone(history: &History, attempt: &Attempt, block: &mut impl KeyBlock) -> (Said, Lent) {
    let mut lent = lent(history.lent(), attempt);
    let bytes = lent.block.iter_mut().chain(&mut lent.response);
    bytes.for_each(|byte| *byte = !*byte);
    let said = block.answer(&mut lent, &attempt.call);
    (said, lent)
}
