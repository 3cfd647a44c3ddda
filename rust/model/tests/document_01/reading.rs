//! "The map of the fuses" and "Refusal numbers": what can be read off a drive,
//! and what is refused. The states stand with the small drive.

use model::drive::Drive;
use model::map::Header;
use model::reading::{fields, states};

#[test]
fn fields_are_those_of_the_small_drive() {
    let header = Header { partitions: 2, cells: 12, bound: 60, entries_at: 8 };
    let rows = [([0, 6, 0, 7], [true; 3]), ([6, 6, 1, 0], [false; 3])];
    for (partition, (numbers, flags)) in (0..).zip(rows) {
        let (read, entry) = fields(&Drive::small().image, partition).expect("it is there");
        assert_eq!((read, entry.zeros), (header, [0; 2]));
        assert_eq!([entry.first, entry.n, entry.kind.into(), entry.flags.into()], numbers);
        assert_eq!([entry.zeroizable(), entry.secret(), entry.slot()], flags);
    }
}

#[test]
fn fields_are_refused_with_1_before_7_and_states_with_1_before_2() {
    let (good, mut bad) = (Drive::small(), Drive::small());
    bad.image[4] = 32; // B
    for partition in [2, u32::MAX] {
        assert_eq!(fields(&good.image, partition), Err(7));
        assert_eq!(fields(&bad.image, partition), Err(1));
    }
    assert_eq!((fields(&bad.image, 0), fields(&[], 0)), (Err(1), Err(1)));
    for (cells, marks) in [(11, 12), (12, 11)] {
        for (drive, number) in [(&good, 2), (&bad, 1)] {
            let (cells, marks) = (vec![0; cells], vec![0; marks]);
            assert_eq!(states(&Drive { cells, marks, ..drive.clone() }), Err(number));
        }
    }
}
