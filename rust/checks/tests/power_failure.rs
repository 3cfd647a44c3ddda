//! Document 01, "Erasing a partition", and document 02, P4, on "The small drive": what the program
//! `power_failure` prints, which cuts an erasure at each burn. The lines are written from the
//! documents: the order is indicator (cell 4), data (cell 0), digest (cell 2); 60 ones pass the
//! bound and 59 do not; one fuse of the indicator makes the slot torn, or erased where no other
//! pair is short; without one an erasure is refused with 15, after one burn, and the slot is what
//! it was. By document 02, P8, the new fuses of the cut and of the erasure that follows add up to
//! those that are neither set nor stuck, 191, or 186 where five are stuck.

use checks::runner;
use std::path::Path;

const NO_STUCK_FUSE: &str = "\
small drive, bound 60, no stuck fuse
burn word        mask   answer                      word after       state      short hek  erased again: state
0    indicator 4 none   cut, burns 1, new fuses 0   0000000000000000 programmed 3     0    short 0, burns 3, new fuses 191: erased
0    indicator 4 low 32 cut, burns 1, new fuses 32  00000000FFFFFFFF torn       3     none short 0, burns 3, new fuses 159: erased
0    indicator 4 low 59 cut, burns 1, new fuses 59  07FFFFFFFFFFFFFF torn       3     none short 0, burns 3, new fuses 132: erased
0    indicator 4 low 60 cut, burns 1, new fuses 60  0FFFFFFFFFFFFFFF torn       2     none short 0, burns 3, new fuses 131: erased
0    indicator 4 all 64 cut, burns 1, new fuses 64  FFFFFFFFFFFFFFFF torn       2     none short 0, burns 3, new fuses 127: erased
1    data 0      none   cut, burns 2, new fuses 64  0000000000000001 torn       2     none short 0, burns 3, new fuses 127: erased
1    data 0      low 32 cut, burns 2, new fuses 95  00000000FFFFFFFF torn       2     none short 0, burns 3, new fuses 96: erased
1    data 0      low 59 cut, burns 2, new fuses 122 07FFFFFFFFFFFFFF torn       2     none short 0, burns 3, new fuses 69: erased
1    data 0      low 60 cut, burns 2, new fuses 123 0FFFFFFFFFFFFFFF torn       1     none short 0, burns 3, new fuses 68: erased
1    data 0      all 64 cut, burns 2, new fuses 127 FFFFFFFFFFFFFFFF torn       1     none short 0, burns 3, new fuses 64: erased
2    digest 2    none   cut, burns 3, new fuses 127 0000000000000000 torn       1     none short 0, burns 3, new fuses 64: erased
2    digest 2    low 32 cut, burns 3, new fuses 159 00000000FFFFFFFF torn       1     none short 0, burns 3, new fuses 32: erased
2    digest 2    low 59 cut, burns 3, new fuses 186 07FFFFFFFFFFFFFF torn       1     none short 0, burns 3, new fuses 5: erased
2    digest 2    low 60 cut, burns 3, new fuses 187 0FFFFFFFFFFFFFFF erased     0     none short 0, burns 3, new fuses 4: erased
2    digest 2    all 64 cut, burns 3, new fuses 191 FFFFFFFFFFFFFFFF erased     0     none short 0, burns 3, new fuses 0: erased
";

/// Fuses 32 to 36 of word 0 are stuck: it is short whatever burns.
const DATA_STUCK: &str = "\
small drive, bound 60, mark 1F on cell 1: word 0 cannot have more than 59 ones
burn word        mask   answer                      word after       state      short hek  erased again: state
0    indicator 4 none   cut, burns 1, new fuses 0   0000000000000000 programmed 3     0    short 1, first 0, burns 3, new fuses 186: torn
0    indicator 4 low 32 cut, burns 1, new fuses 32  00000000FFFFFFFF torn       3     none short 1, first 0, burns 3, new fuses 154: torn
0    indicator 4 low 59 cut, burns 1, new fuses 59  07FFFFFFFFFFFFFF torn       3     none short 1, first 0, burns 3, new fuses 127: torn
0    indicator 4 low 60 cut, burns 1, new fuses 60  0FFFFFFFFFFFFFFF torn       2     none short 1, first 0, burns 3, new fuses 126: torn
0    indicator 4 all 64 cut, burns 1, new fuses 64  FFFFFFFFFFFFFFFF torn       2     none short 1, first 0, burns 3, new fuses 122: torn
1    data 0      none   cut, burns 2, new fuses 64  0000000000000001 torn       2     none short 1, first 0, burns 3, new fuses 122: torn
1    data 0      low 32 cut, burns 2, new fuses 95  00000000FFFFFFFF torn       2     none short 1, first 0, burns 3, new fuses 91: torn
1    data 0      low 59 cut, burns 2, new fuses 117 07FFFFE0FFFFFFFF torn       2     none short 1, first 0, burns 3, new fuses 69: torn
1    data 0      low 60 cut, burns 2, new fuses 118 0FFFFFE0FFFFFFFF torn       2     none short 1, first 0, burns 3, new fuses 68: torn
1    data 0      all 64 cut, burns 2, new fuses 122 FFFFFFE0FFFFFFFF torn       2     none short 1, first 0, burns 3, new fuses 64: torn
2    digest 2    none   cut, burns 3, new fuses 122 0000000000000000 torn       2     none short 1, first 0, burns 3, new fuses 64: torn
2    digest 2    low 32 cut, burns 3, new fuses 154 00000000FFFFFFFF torn       2     none short 1, first 0, burns 3, new fuses 32: torn
2    digest 2    low 59 cut, burns 3, new fuses 181 07FFFFFFFFFFFFFF torn       2     none short 1, first 0, burns 3, new fuses 5: torn
2    digest 2    low 60 cut, burns 3, new fuses 182 0FFFFFFFFFFFFFFF torn       1     none short 1, first 0, burns 3, new fuses 4: torn
2    digest 2    all 64 cut, burns 3, new fuses 186 FFFFFFFFFFFFFFFF torn       1     none short 1, first 0, burns 3, new fuses 0: torn
";

/// Fuses 32 to 36 of the indicator are stuck: it is short whatever burns, and stops nothing.
const INDICATOR_WEAK: &str = "\
small drive, bound 60, mark 1F on cell 5: the indicator cannot have more than 59 ones
burn word        mask   answer                      word after       state      short hek  erased again: state
0    indicator 4 none   cut, burns 1, new fuses 0   0000000000000000 programmed 3     0    short 1, first 4, burns 3, new fuses 186: erased
0    indicator 4 low 32 cut, burns 1, new fuses 32  00000000FFFFFFFF torn       3     none short 1, first 4, burns 3, new fuses 154: erased
0    indicator 4 low 59 cut, burns 1, new fuses 54  07FFFFE0FFFFFFFF torn       3     none short 1, first 4, burns 3, new fuses 132: erased
0    indicator 4 low 60 cut, burns 1, new fuses 55  0FFFFFE0FFFFFFFF torn       3     none short 1, first 4, burns 3, new fuses 131: erased
0    indicator 4 all 64 cut, burns 1, new fuses 59  FFFFFFE0FFFFFFFF torn       3     none short 1, first 4, burns 3, new fuses 127: erased
1    data 0      none   cut, burns 2, new fuses 59  0000000000000001 torn       3     none short 1, first 4, burns 3, new fuses 127: erased
1    data 0      low 32 cut, burns 2, new fuses 90  00000000FFFFFFFF torn       3     none short 1, first 4, burns 3, new fuses 96: erased
1    data 0      low 59 cut, burns 2, new fuses 117 07FFFFFFFFFFFFFF torn       3     none short 1, first 4, burns 3, new fuses 69: erased
1    data 0      low 60 cut, burns 2, new fuses 118 0FFFFFFFFFFFFFFF torn       2     none short 1, first 4, burns 3, new fuses 68: erased
1    data 0      all 64 cut, burns 2, new fuses 122 FFFFFFFFFFFFFFFF torn       2     none short 1, first 4, burns 3, new fuses 64: erased
2    digest 2    none   cut, burns 3, new fuses 122 0000000000000000 torn       2     none short 1, first 4, burns 3, new fuses 64: erased
2    digest 2    low 32 cut, burns 3, new fuses 154 00000000FFFFFFFF torn       2     none short 1, first 4, burns 3, new fuses 32: erased
2    digest 2    low 59 cut, burns 3, new fuses 181 07FFFFFFFFFFFFFF torn       2     none short 1, first 4, burns 3, new fuses 5: erased
2    digest 2    low 60 cut, burns 3, new fuses 182 0FFFFFFFFFFFFFFF erased     1     none short 1, first 4, burns 3, new fuses 4: erased
2    digest 2    all 64 cut, burns 3, new fuses 186 FFFFFFFFFFFFFFFF erased     1     none short 1, first 4, burns 3, new fuses 0: erased
";

/// Every fuse of the indicator is stuck: a cut of its burn sets none, and without a set fuse of it
/// an erasure stops there. No word ever changes.
const INDICATOR_STUCK: &str = "\
small drive, bound 60, mark FFFFFFFF on cells 4 and 5: the indicator cannot have a one
burn word        mask   answer                      word after       state      short hek  erased again: state
0    indicator 4 none   cut, burns 1, new fuses 0   0000000000000000 programmed 3     0    refused 15, burns 1: programmed
0    indicator 4 low 32 cut, burns 1, new fuses 0   0000000000000000 programmed 3     0    refused 15, burns 1: programmed
0    indicator 4 low 59 cut, burns 1, new fuses 0   0000000000000000 programmed 3     0    refused 15, burns 1: programmed
0    indicator 4 low 60 cut, burns 1, new fuses 0   0000000000000000 programmed 3     0    refused 15, burns 1: programmed
0    indicator 4 all 64 cut, burns 1, new fuses 0   0000000000000000 programmed 3     0    refused 15, burns 1: programmed
1    data 0      none   refused 15, burns 1         0000000000000001 programmed 3     0    refused 15, burns 1: programmed
1    data 0      low 32 refused 15, burns 1         0000000000000001 programmed 3     0    refused 15, burns 1: programmed
1    data 0      low 59 refused 15, burns 1         0000000000000001 programmed 3     0    refused 15, burns 1: programmed
1    data 0      low 60 refused 15, burns 1         0000000000000001 programmed 3     0    refused 15, burns 1: programmed
1    data 0      all 64 refused 15, burns 1         0000000000000001 programmed 3     0    refused 15, burns 1: programmed
2    digest 2    none   refused 15, burns 1         0000000000000000 programmed 3     0    refused 15, burns 1: programmed
2    digest 2    low 32 refused 15, burns 1         0000000000000000 programmed 3     0    refused 15, burns 1: programmed
2    digest 2    low 59 refused 15, burns 1         0000000000000000 programmed 3     0    refused 15, burns 1: programmed
2    digest 2    low 60 refused 15, burns 1         0000000000000000 programmed 3     0    refused 15, burns 1: programmed
2    digest 2    all 64 refused 15, burns 1         0000000000000000 programmed 3     0    refused 15, burns 1: programmed
";

#[test]
fn each_cut_leaves_what_the_documents_say() {
    let printed = runner::run(Path::new(env!("CARGO_BIN_EXE_power_failure")), &[]);
    let expected = [NO_STUCK_FUSE, DATA_STUCK, INDICATOR_WEAK, INDICATOR_STUCK].concat();
    assert_eq!(String::from_utf8_lossy(&printed), expected);
}
