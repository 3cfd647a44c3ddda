//! Document 02, P8: the most new fuses that a call can tell, 65,536, every one of 2,048 cells,
//! which is one more than 16 bits hold. By an erasure, by one that is cut at its last burn, and by
//! FERS, through the safe Rust functions and as C calls them; asked again, each tells 0. The cases
//! of the small drive stand with `small_drive_cases`.

use checks::archive::Archive;
use checks::calls::requests::fers;
use checks::largest::one_partition;
use checks::lent;
use checks::proved::Proved;
use checks::small::response;
use model::Erasure::{Cut, Erased};
use model::{Call, Erase, KeyBlock, Said, HARDWARE, SLOT_FLAGS, SOFTWARE, ZEROIZABLE};
use sciambrunola::NO_CELL;

const MOST: u32 = 65_536;

/// A key block's erasures of a partition that is the whole array, and that has so many words.
fn check(block: &mut impl KeyBlock, (kind, flags): (u8, u8), burns: u32) {
    let new = || lent::of(one_partition(kind, flags));
    let last = Some(model::Cut { k: burns - 1, mask: u64::MAX });
    let [mut whole, mut cut, mut by_fers] = [new(), new(), new()];
    // The chksum's bytes: four of FF, and 1 of 65,536.
    for (new_fuses, chksum) in [(MOST, 0xFFFF_FC03), (0, 0xFFFF_FC04)] {
        let said = block.answer(&mut whole, &Call::Erase(Erase { partition: 0, cut: None }));
        let ended = Erased { short_pairs: 0, first_short: None, burns, new_fuses };
        assert_eq!(said, Said::Erasure(ended));
        let said = block.answer(&mut cut, &Call::Erase(Erase { partition: 0, cut: last }));
        assert_eq!(said, Said::Erasure(Cut { burns, new_fuses }));
        block.answer(&mut by_fers, &Call::Mailbox(fers(0)));
        assert_eq!(response(&by_fers, 24), [chksum, 0, 0, 0, NO_CELL, new_fuses]);
    }
}

#[test]
fn an_erasure_of_2048_cells_tells_65536_new_fuses() {
    // 1,024 pairs; or 2,044 single cells, the digest and the indicator.
    for (of, burns) in [((HARDWARE, SLOT_FLAGS), 1024), ((SOFTWARE, ZEROIZABLE), 2046)] {
        check(&mut Proved, of, burns);
        check(&mut Archive::default(), of, burns);
    }
}
