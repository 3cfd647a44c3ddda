//! P2, "Write the map".

use model::{text, Drive, Lent};

/// "The small drive": its map as a text, and as an image.
const SMALL: &str = "12 60\n0 6 0 7\n6 6 1 0\n";
const SMALL_IMAGE: [u8; 24] = [
    0x02, 0x00, 0x0C, 0x00, 0x3C, 0x00, 0x08, 0x00, // P, C, B, E
    0x00, 0x00, 0x06, 0x00, 0x00, 0x07, 0x00, 0x00, // first, n, kind, flags, two zero bytes
    0x06, 0x00, 0x06, 0x00, 0x01, 0x00, 0x00, 0x00,
];

/// What is answered to a text with so much room: the image, with the buffer as it was behind
/// it, or the refusal, with the buffer as it was.
fn written(text: &[u8], room: usize) -> Result<Vec<u8>, u32> {
    let before = Lent { output: vec![0xA5; room], ..Lent::default() };
    let ([refusal, bytes], after) = text::write(&before, text);
    let (image, behind) = after.output.split_at(bytes as usize);
    assert_eq!((behind.iter().all(|byte| *byte == 0xA5), after.output.len()), (true, room));
    assert_eq!(refusal == 0, bytes > 0);
    if refusal == 0 {
        Ok(image.to_vec())
    } else {
        Err(refusal)
    }
}

/// A text that gets this refusal, however much room there is.
fn refused(text: &[u8], number: u32) {
    let escaped = text.escape_ascii();
    assert_eq!(written(text, 8 * text.len() + 8), Err(number), "{escaped}");
}

/// So many partitions of four cells, one behind the other, under C = 2,048 and B = 60.
fn lines(count: usize) -> Vec<u8> {
    let line = |number: usize| format!("{} 4 0 0\n", 4 * number % 2048);
    ["2048 60\n".to_string()].into_iter().chain((0..count).map(line)).collect::<String>().into()
}

/// "The text becomes an image with E = 8, reading that image gives the same fields"; "8 bytes
/// and 8 more per partition line"; "nor any call past the image".
#[test]
fn p2_the_small_drives_text_is_its_map() {
    assert_eq!(SMALL_IMAGE.to_vec(), Drive::small().image);
    for room in [24, 25, 136] {
        assert_eq!(written(SMALL.as_bytes(), room), Ok(SMALL_IMAGE.to_vec()), "{room}");
    }
    for room in [0, 8, 16, 23] {
        assert_eq!(written(SMALL.as_bytes(), room), Err(16), "{room}");
    }
    assert_eq!(text::output(SMALL.as_bytes()), [SMALL_IMAGE.to_vec(), vec![]]);
    assert_eq!(text::output(b""), [vec![], b"refused 16\n".to_vec()]);
    assert_eq!(text::output(b"12 60\n"), [vec![], b"refused 1\n".to_vec()]);
}

/// What is changed in the small drive's text, one thing each, and by what.
const OF_NO_FORM: [(&str, &str); 29] = [
    ("12 60", "012 60"),
    ("0 6 0 7", "00 6 0 7"),
    ("0 6 0 7", "0 6 0 07"),
    ("12 60", "65536 60"),
    ("6 6 1 0", "6 6 1 65536"),
    ("6 6 1 0", "65542 6 1 0"),
    ("12 60", "100000 60"),
    ("6 6 1 0", "6 6 1 131072"),
    ("12 60", "18446744073709551628 60"),
    ("12 60", "12  60"),
    ("12 60", " 12 60"),
    ("12 60", "12 60 "),
    ("12 60", "12\t60"),
    ("12 60", "+12 60"),
    ("0 6", "-0 6"),
    ("12 60", "1２ 60"),
    ("12 60", "\u{FEFF}12 60"),
    ("12 60", "12 60\n"),
    ("12 60", "\n12 60"),
    ("12 60", "12"),
    ("12 60", "12 60 8"),
    ("6 6 1 0", "6 6 1"),
    ("6 6 1 0", "6 6 1 0 0"),
    ("6 6 1 0\n", "6 6 1 0"),
    ("6 6 1 0\n", "6 6 1 0\n\n"),
    ("6 6 1 0\n", "6 6 1 0\n\0"),
    ("\n", "\r\n"),
    ("\n", " "),
    ("\n", ""),
];

/// "first cell, cells, kind, flags, after a first line with C and B, all decimal without leading
/// zeros and at most 65,535, single spaces, each line ended by a line feed"
#[test]
fn p2_16_where_the_text_has_not_that_form() {
    for (what, by) in OF_NO_FORM {
        assert_ne!(SMALL.replace(what, by), SMALL);
        refused(SMALL.replace(what, by).as_bytes(), 16);
    }
    for text in [&b""[..], b"\n", b" \n", b"12 60", b"12 60\n\xFF", b"12 6\xB0\n"] {
        refused(text, 16);
    }
}

/// "an image is written exactly when some valid map has those fields", by document 01's rules:
/// at 65,535 and over 255 too; "16 ..., 1 the map would break a rule" in this order.
#[test]
fn p2_1_where_the_text_has_that_form_and_the_map_would_break_a_rule() {
    let texts = [
        "12 60\n",
        "0 0\n",
        "12 32\n0 6 0 7\n",
        "65535 60\n0 6 0 7\n",
        "12 60\n0 6 0 65535\n",
        "12 60\n0 6 256 7\n",
        "12 60\n0 6 0 263\n",
        "12 60\n6 6 257 0\n",
        "12 60\n6 6 1 0\n0 6 0 7\n",
        "12 60\n0 6 0 5\n",
        "12 60\n65532 8 0 0\n",
    ];
    for text in texts {
        refused(text.as_bytes(), 1);
        let lines = text.lines().count();
        assert_eq!(written(text.as_bytes(), 8 * lines), Err(1), "{text}");
        assert_eq!(written(text.as_bytes(), 8 * lines - 1), Err(16), "{text}");
    }
}

/// "partition count P (1..16)", and more lines than a u16 counts.
#[test]
fn p2_up_to_sixteen_partition_lines_are_written_and_more_are_1_or_16_by_the_room() {
    for count in [1, 2, 15, 16] {
        let image = written(&lines(count), 8 + 8 * count).expect("it keeps every rule");
        assert_eq!((image.len(), usize::from(image[0])), (8 + 8 * count, count));
        assert_eq!(written(&lines(count), 7 + 8 * count), Err(16));
    }
    for count in [17, 18, 300, 65_536, 65_537, 65_552] {
        assert_eq!(written(&lines(count), 8 + 8 * count), Err(1), "{count}");
        for room in [7 + 8 * count, 8 * count, 136] {
            assert_eq!(written(&lines(count), room), Err(16), "{count}, {room}");
        }
    }
    // What a count in 16 bits would ask for.
    for more in [0, 1, 16] {
        assert_eq!(written(&lines(65_536 + more), 8 + 8 * more), Err(16), "{more}");
    }
}
