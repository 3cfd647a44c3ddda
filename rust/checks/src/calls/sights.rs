//! Sights: what is to be met in generated calls though no outcome names it. Those of tables stand
//! with `handles`, those of new fuses with `charge`.

use super::met::Seen;
use crate::layout::Layout;
use crate::tally::Row;
use model::map::{broken_rules, Rule};
use model::{Call, Command, Place, Said, Size};

pub type Sight = fn(&Seen) -> bool;

pub const ALL: &[Row<Sight>] = &[
    ("secret word shown at B", |s| s.came == "ZEROIZE word" && !s.older() && s.word(true, 0)),
    ("secret word withheld at B - 1", |s| {
        s.came == "ZEROIZE withheld" && !s.older() && s.word(true, -1)
    }),
    ("open word shown at B - 1", |s| s.came == "ZEROIZE word" && !s.older() && s.word(false, -1)),
    ("pair shown with unset fuses", |s| {
        s.came == "ZEROIZE word" && !s.older() && s.unset(Size::Pair)
    }),
    ("32-bit word shown with unset fuses", |s| {
        s.came == "ZEROIZE word" && !s.older() && s.unset(Size::Cell)
    }),
    ("older guide: secret word told at B", |s| {
        s.came == "ZEROIZE word" && s.older() && s.word(true, 0)
    }),
    ("older guide: secret word withheld at B - 1", |s| {
        s.came == "ZEROIZE withheld" && s.older() && s.word(true, -1)
    }),
    ("older guide: pair told with unset fuses", |s| {
        s.came == "ZEROIZE word" && s.older() && s.unset(Size::Pair)
    }),
    ("older guide: 32-bit word told with unset fuses", |s| {
        s.came == "ZEROIZE word" && s.older() && s.unset(Size::Cell)
    }),
    ("older guide: WRITE with unset fuses", |s| {
        s.came == "WRITE word" && s.older() && s.unset(Size::Pair)
    }),
    ("1 for flag 8's rule alone", |s| {
        s.refused(1) && broken_rules(&s.before.drive.image) == [Rule::OlderGuideIsZeroizable]
    }),
    ("WRITE short of its value", |s| match (s.call, s.named) {
        (Call::Direct(Command::Write { value, .. }), Some(named)) => {
            s.said.refusal().is_none() && named.stands != *value
        }
        _ => false,
    }),
    ("load below a held place", |s| s.loads(|places| places[1..].iter().any(Place::is_held))),
    ("load of tag 0", |s| s.loads(|places| places[0] == Place::Waiting(0))),
    ("FSTA without an active slot", |s| s.came == "FSTA none" && s.after.response[12] == 0xFF),
    ("FSTA with an active slot and no HEK", |s| {
        s.came == "FSTA none" && s.after.response[12] != 0xFF && s.after.response[16] == 0
    }),
    ("FSTA with the HEK", |s| s.came == "FSTA none" && s.after.response[16] == 1),
    ("ended with the indicator at B", |s| s.ends(|p, cells| p.past_bound(cells) == 0)),
    ("ended with the indicator at B - 1", |s| s.ends(|p, cells| p.past_bound(cells) == -1)),
    ("ended with the indicator at 1", |s| s.ends(|p, cells| p.indicator_ones(cells) == 1)),
    ("ended torn", |s| s.ends(Layout::torn)),
    ("ended torn, the indicator short too", |s| s.ends(weakly_torn)),
    ("ended erased, the indicator alone short", |s| s.ends(weakly_erased)),
    ("ended from torn", |s| {
        let torn = |p: &Layout| p.torn(&s.before.drive.cells);
        s.ends(|_, _| true) && s.partition().map_or(false, torn)
    }),
    ("indicator cut at B", |s| s.cuts_indicator(|p, cells| p.past_bound(cells) == 0)),
    ("indicator cut at B - 1", |s| s.cuts_indicator(|p, cells| p.past_bound(cells) == -1)),
    ("indicator cut at 1", |s| s.cuts_indicator(|p, cells| p.indicator_ones(cells) == 1)),
    ("indicator cut at 0", |s| s.cuts_indicator(|p, cells| p.indicator_ones(cells) == 0)),
    ("32-bit word cut with a mask over 32 bits", |s| s.came == "cut erasure cut" && s.narrow()),
    ("cut with a key held", |s| s.came == "cut erasure cut" && s.before.cache.any_held()),
    ("cut past the end with a key held", |s| {
        s.came == "cut erasure erased" && s.before.cache.any_held()
    }),
    ("restart with a key held", |s| s.came == "restart nothing" && s.before.cache.any_held()),
    ("cut with a reply awaited", |s| s.came == "cut erasure cut" && s.awaited()),
    ("cut past the end with a reply awaited", |s| s.came == "cut erasure erased" && s.awaited()),
    ("cut refused with a reply awaited", |s| s.came == "cut erasure refused 10" && s.awaited()),
    ("restart with a reply awaited", |s| s.came == "restart nothing" && s.awaited()),
    ("erasure with a reply awaited", |s| s.came == "erasure erased" && s.awaited()),
    ("READ with a reply awaited", |s| s.came == "READ word" && s.awaited()),
    ("WRITE with a reply awaited", |s| s.came == "WRITE word" && s.awaited()),
    ("ZEROIZE with a reply awaited", |s| s.carries_out("ZEROIZE") && s.awaited()),
    ("erasure of a slot, clear of an empty cache awaited", |s| s.in_empty_clear("erasure")),
    ("WRITE to a slot, clear of an empty cache awaited", |s| s.in_empty_clear("WRITE")),
    ("ZEROIZE in a slot, clear of an empty cache awaited", |s| s.in_empty_clear("ZEROIZE")),
    ("FERS beside an unsure place", |s| s.came == "FERS none" && s.any(Place::is_unsure)),
    ("FSTA with a reply awaited", |s| s.came == "FSTA none" && s.awaited()),
    ("clear of an empty cache", |s| s.came == "CLKC clear" && !s.before.cache.any_held()),
    ("clear of held and unsure places", |s| {
        s.came == "CLKC clear" && s.any(Place::is_held) && s.any(Place::is_unsure)
    }),
    ("unload of the lowest of several places", |s| {
        s.came == "KUNL unload" && s.with_its_tag().len() > 1
    }),
    ("10 by waiting places alone", |s| {
        s.refused(10) && !s.any(Place::is_held) && !s.any(Place::is_unsure)
    }),
    ("10 by unsure places alone", |s| {
        s.refused(10) && !s.any(Place::is_held) && !s.any(Place::is_waiting)
    }),
    ("12 by a waiting place", |s| s.refused(12) && s.its_place(Place::is_waiting)),
    ("12 by an unsure place", |s| s.refused(12) && s.its_place(Place::is_unsure)),
    ("13 with no place held", |s| s.refused(13) && !s.any(Place::is_held)),
    ("17 on a waiting tag", |s| s.came == "KUNL refused 17" && s.its_place(Place::is_waiting)),
    ("18 on an unsure tag", |s| s.came == "KUNL refused 18" && s.its_place(Place::is_unsure)),
    ("17 with no place waiting", |s| s.refused(17) && !s.any(Place::is_waiting)),
    ("17 with no reply awaited", |s| s.refused(17) && !s.awaited()),
    ("19 with a place waiting", |s| s.refused(19) && s.any(Place::is_waiting)),
    ("a reply to several places", |s| {
        s.came == "engine reply taken" && s.places(Place::is_waiting) > 1
    }),
    ("a reply to no place", |s| s.came == "engine reply taken" && !s.any(Place::is_waiting)),
    ("a reply beside an unsure place", |s| {
        s.came == "engine reply taken" && s.any(Place::is_unsure)
    }),
    ("states: erased", |s| s.lists(0)),
    ("states: torn", |s| s.lists(1)),
    ("states: blank", |s| s.lists(2)),
    ("states: programmed", |s| s.lists(3)),
    ("states: indicator at B", |s| s.lists_some(|p, cells| p.past_bound(cells) == 0)),
    ("states: indicator at B - 1", |s| s.lists_some(|p, cells| p.past_bound(cells) == -1)),
    ("states: indicator at 1", |s| s.lists_some(|p, cells| p.indicator_ones(cells) == 1)),
    ("states: erased, the indicator alone short", |s| s.lists_some(weakly_erased)),
    ("states: torn, the indicator short too", |s| s.lists_some(weakly_torn)),
    ("fields: more than 255 cells", |s| matches!(s.said, Said::Fields([.., 256..=2048, _, _]))),
    ("states: more than 255 short pairs", |s| {
        let mut listed = s.after.short_pairs.iter().take(s.partitions.len());
        matches!(s.said, Said::Listing([0, _])) && listed.any(|short| *short > 255)
    }),
    ("states: refused with 1 where 2 applies", |s| {
        s.came == "states refused 1" && s.applying.len() == 2
    }),
    ("why: an erased slot passed over", |s| s.passes_over(Layout::erased)),
    ("why: one with a short indicator passed over", |s| s.passes_over(weakly_erased)),
    ("why: torn at B - 1", |s| s.torn(|p, (_, ones), _| ones + 1 == p.bound)),
    ("why: torn at 0", |s| s.torn(|_, (_, ones), _| ones == 0)),
    ("why: torn at the digest", |s| s.torn(|p, (cell, _), _| cell == p.digest())),
    ("why: torn, the indicator short too", |s| s.torn(|p, _, cells| weakly_torn(p, cells))),
    ("why: torn at the digest, the indicator short too", |s| {
        s.torn(|p, (cell, _), cells| cell == p.digest() && weakly_torn(p, cells))
    }),
    ("why: refused with 1 where 2 applies", |s| s.came == "why refused 1" && s.applying.len() == 2),
];

fn weakly_erased(partition: &Layout, cells: &[u32]) -> bool {
    partition.erased(cells) && partition.weakly_marked(cells)
}

fn weakly_torn(partition: &Layout, cells: &[u32]) -> bool {
    partition.torn(cells) && partition.weakly_marked(cells)
}
