//! The places of the key cache in contexts that no calls leave, with numbers that the key block
//! never writes among them: as the safe Rust call tells them and as C is told them, and what every
//! call leaves of their words; and what the safe calls tell of places and partitions that are not
//! there.

use checks::archive::place;
use checks::calls::{self, difference, Scene};
use checks::context::{self, AWAITED};
use checks::proved;
use checks::random::Random;
use checks::tally::Tally;
use model::{Call, Drive, EngineReply, Erasure, KeyBlock, Lent, Model, Said};
use sciambrunola::{Context, Place, States, CONTEXT_WORDS, PLACES};

type Words = [u64; CONTEXT_WORDS];

/// Sequences of calls on odd words.
const SEQUENCES: usize = 5_000;
/// Each odd number has to be met so often in each of its calls.
const LEAST: usize = 100;

#[test]
fn a_new_context_is_empty() {
    assert_eq!(Context::new(), Context::from_words([0; CONTEXT_WORDS]));
    assert_eq!(Context::new(), Context::default());
    assert!((0..PLACES).all(|i| Context::new().place(i) == Place::Empty));
}

/// "any other number, which the block never writes, counts as unsure".
#[test]
fn each_place_is_told_by_its_words_and_any_kind_but_0_1_and_2_is_unsure() {
    let kinds = [1, 2, 3, 4, 0x1_0000_0001, 0x1_0000_0000, u64::MAX, 0];
    let mut words = [0; CONTEXT_WORDS];
    for i in 0..PLACES {
        // An empty place has a tag here too, which is not told.
        (words[i], words[PLACES + i]) = (kinds[i % 8], u64::MAX - i as u64);
    }
    words[AWAITED] = u64::MAX;
    let context = Context::from_words(words);
    for i in 0..PLACES {
        let tag = words[PLACES + i];
        let (expected, told) = match words[i] {
            0 => (Place::Empty, [0, 0]),
            1 => (Place::Held(tag), [1, tag]),
            2 => (Place::Waiting(tag), [2, tag]),
            _ => (Place::Unsure(tag), [3, tag]),
        };
        assert_eq!(context.place(i), expected, "place {i}");
        assert_eq!(place(&context, i as u32), Said::Place(told), "place {i}");
    }
    for past in [16, 31, 32, 0x100, 0x1_0000, 0xFFFF_FFFF] {
        assert_eq!(place(&context, past), Said::Place([0, 0]), "place {past}");
    }
    let past = [PLACES, AWAITED, 0x100, 0xFFFF_FFFF, 0x1_0000_0000, usize::MAX];
    assert!(past.into_iter().all(|i| context.place(i) == Place::Empty));
}

/// Words that mean the same as these: an unsure place has any kind that the key block never writes,
/// an empty one any tag, and a load's reply is awaited by any such number.
fn odd(random: &mut Random, words: Words) -> Words {
    let any = random.bits();
    let never = |random: &mut Random| random.pick(&[4, 5, 1 << 8, 1 << 32, u64::MAX, any.max(4)]);
    let mut odd = words;
    for i in 0..PLACES {
        match words[i] {
            0 if random.one_in(2) => odd[PLACES + i] = random.bits(),
            3 if random.one_in(2) => odd[i] = never(random),
            _ => {}
        }
    }
    if words[AWAITED] == 2 {
        odd[AWAITED] = never(random);
    }
    odd
}

/// The words that a call leaves which finds odd ones: those that it does not concern stay, the
/// others are the model's. A cut and a restart make all of the cache's 0.
fn left(odd: Words, [before, after]: [Words; 2], said: Said) -> Words {
    let emptied = matches!(said, Said::Nothing | Said::Erasure(Erasure::Cut { .. }));
    let concerned = |i: usize| match i {
        AWAITED.. => before[i] != after[i],
        _ => [i % PLACES, i % PLACES + PLACES].into_iter().any(|word| before[word] != after[word]),
    };
    std::array::from_fn(|i| match concerned(i) {
        _ if emptied && i <= AWAITED => 0,
        true => after[i],
        false => odd[i],
    })
}

/// Makes a call on a context with odd words, and gives these, what it came to, and what it left.
/// Where a reply is awaited by a number that the key block never writes, no order is known to be
/// done: any reply counts as a failure.
fn check(random: &mut Random, call: &Call, before: &Lent) -> (Words, String, Lent) {
    let words = context::words(before);
    let odd = odd(random, words);
    let asked = match call {
        Call::EngineReply(_) if odd[AWAITED] > 3 => Call::EngineReply(EngineReply::Failed(0)),
        _ => call.clone(),
    };
    let (mut expected, mut found) = (before.clone(), before.clone());
    let said = Model.answer(&mut expected, &asked);
    let mut context = Context::from_words(odd);
    let answered = proved::answer(&mut found, &mut context, call);
    let left = left(odd, [words, context::words(&expected)], said);
    assert_eq!(context, Context::from_words(left), "{call}: from {odd:X?}");
    (found.cache, found.table) = (expected.cache.clone(), expected.table.clone());
    assert_eq!(difference((said, &expected), (answered, &found)), None, "{call}: from {odd:X?}");
    (odd, calls::came(call, said), expected)
}

/// A number that the key block never writes, whether some words have it, and the calls in which it
/// has to be met.
type Odd = (&'static str, fn(&Words) -> bool, &'static str);

const ODD: [Odd; 3] = [
    (
        "an unknown kind",
        |words| words[..PLACES].iter().any(|kind| *kind > 3),
        "place unsure, WRITE refused 10, ZEROIZE refused 10, erasure refused 10, cut erasure cut, \
         restart nothing, engine reply taken, engine reply refused 19, CLKC clear, \
         CLKC refused 17, KLOD refused 12, KLOD refused 13, KLOD refused 18, KUNL refused 14, \
         KUNL refused 18, FERS refused 10, FSTA none",
    ),
    (
        "a tag of an empty place",
        |words| (0..PLACES).any(|i| words[i] == 0 && words[PLACES + i] != 0),
        "place empty, cut erasure cut, cut erasure erased, restart nothing, engine reply taken, \
         CLKC clear, KLOD load, KLOD refused 17, KUNL unload, KUNL refused 14, FERS none",
    ),
    (
        "an unknown awaited reply",
        |words| words[AWAITED] > 3,
        "cut erasure cut, cut erasure erased, restart nothing, engine reply taken, \
         CLKC refused 17, KLOD refused 17, KUNL refused 17, FERS refused 17, FSTA none",
    ),
];

#[test]
fn numbers_that_are_never_written_count_as_unsure_or_awaited_and_stay_until_they_are_concerned() {
    const SEED: u64 = 0x5EED_0004_0033_0064;
    let key = |odd: &str, came: &str| format!("{odd}: {came}");
    let total = Tally::over(SEQUENCES, |tally, number| {
        let (mut scene, mut random) =
            (Scene::on(number, |_, _| ()), Random::numbered(SEED, number));
        for _ in 0..scene.calls {
            let (call, mut before) = scene.next_call();
            before.cache = scene.any_cache();
            let (odd, came, after) = check(&mut random, &call, &before);
            let met = |(name, is_met, calls): &Odd| {
                let asked = calls.split(", ").any(|call| call == came) && is_met(&odd);
                asked.then(|| key(name, &came))
            };
            tally.add(ODD.iter().filter_map(met));
            scene.go_on(after);
        }
    });
    let keys = |(name, _, calls): Odd| calls.split(", ").map(move |came| key(name, came));
    total.check((400_000, "calls with odd words"), ODD.into_iter().flat_map(keys).collect(), LEAST);
}

#[test]
fn no_partition_past_the_maps_is_listed() {
    let Drive { image, cells, marks } = Drive::small();
    match sciambrunola::states(&image, &cells, &marks) {
        States::Listed(listing) => {
            let past = (2..20).chain([0x100, 0x1_0000, u32::MAX]);
            assert_eq!(past.filter_map(|number| listing.get(number)).count(), 0);
        }
        States::Refused(number) => panic!("refused with {number}"),
    }
}
