//! The text of a drive, rule by rule (`drives/README.md`), and the bytes that it
//! makes (document 01, "The map of the fuses" and "A status program").

use drives::Drive;

/// Document 01's small drive.
const SMALL: &str = "12 60\n0 6 0 7\n6 6 1 0\ncell 0 1\n";

fn read(text: &str) -> Drive {
    Drive::read(text).unwrap_or_else(|mistake| panic!("{mistake} in {text:?}"))
}

#[test]
fn small_drive_is_the_documents_bytes() {
    let mut expected = vec![
        24, 0, // map length
        2, 0, 12, 0, 60, 0, 8, 0, // P, C, B, E
        0, 0, 6, 0, 0, 7, 0, 0, // first, n, kind, flags, two zero bytes
        6, 0, 6, 0, 1, 0, 0, 0, //
        1, 0, 0, 0, // cell 0
    ];
    // The other cells, then the marks.
    expected.resize(2 + 24 + 4 * 12 + 4 * 12, 0);
    assert_eq!(read(SMALL).bytes(), expected);
    // Comments and empty lines say nothing.
    let text = "# é\n\n12 60\n#0 6 0 7\n0 6 0 7\n\n6 6 1 0\n# cell 1 1\n\ncell 0 1\n#\n";
    assert_eq!(read(text), read(SMALL));
}

#[test]
fn numbers_are_little_endian_and_marks_follow_the_cells() {
    let drive = read("516 60\n258 258 2 0\ncell 0 A1B2C3D4\nmark 515 5E6F7\n");
    let image = [
        1, 0, 4, 2, 60, 0, 8, 0, // P, C, B, E
        2, 1, 2, 1, 2, 0, 0, 0, // first, n, kind, flags, two zero bytes
    ];
    let mut fuses = vec![0; 2 * 4 * 516];
    fuses[..4].copy_from_slice(&[0xD4, 0xC3, 0xB2, 0xA1]);
    fuses[2 * 4 * 516 - 4..].copy_from_slice(&[0xF7, 0xE6, 5, 0]);
    assert_eq!(drive.bytes(), [&[16, 0][..], &image, &fuses].concat());
    assert_eq!(drive.image(), image);
    assert_eq!((drive.cells()[0], drive.marks()[515]), (0xA1B2_C3D4, 0x5_E6F7));
}

/// Document 01, "The map of the fuses": the fewest cells and the lowest bound, and as many
/// partitions and cells as can be.
#[test]
fn smallest_and_largest_drives_are_read() {
    let smallest = read("4 33\n0 4 2 0\n").bytes();
    assert_eq!(smallest[..18], [16, 0, 1, 0, 4, 0, 33, 0, 8, 0, 0, 0, 4, 0, 2, 0, 0, 0]);
    assert_eq!(smallest[18..], [0; 2 * 4 * 4]);
    let partitions: String = (0..16).map(|number| format!("{} 128 0 7\n", 128 * number)).collect();
    let bytes = read(&format!("2048 64\n{partitions}cell 2047 1\n")).bytes();
    assert_eq!(bytes.len(), 2 + 136 + 2 * 4 * 2048);
    assert_eq!(bytes[..10], [136, 0, 16, 0, 0, 8, 64, 0, 8, 0]);
    assert_eq!(bytes[130..138], [128, 7, 128, 0, 0, 7, 0, 0]);
}

/// The lines of the fuses of a drive of four cells, its cells and marks.
#[test]
fn fuses_are_one_to_eight_digits_for_one_cell_or_a_run_in_any_order() {
    let digits = "cell 0 F\ncell 1 0000000f\ncell 2 89abCDEF\ncell 3 0\n";
    let rows = [
        (digits, [0xF, 0xF, 0x89AB_CDEF, 0], [0; 4]),
        ("cell 1-2 A\nmark 0-3 B\n", [0, 0xA, 0xA, 0], [0xB; 4]),
        ("cell 3-3 A\n", [0, 0, 0, 0xA], [0; 4]),
        ("cell 0 1\ncell 1-2 2\nmark 0 3\n", [1, 2, 2, 0], [3, 0, 0, 0]),
        ("mark 0 3\ncell 1-2 2\ncell 0 1\n", [1, 2, 2, 0], [3, 0, 0, 0]),
    ];
    for (lines, cells, marks) in rows {
        let drive = read(&format!("4 60\n0 4 0 0\n{lines}"));
        assert_eq!((drive.cells(), drive.marks()), (&cells[..], &marks[..]), "{lines}");
    }
}
