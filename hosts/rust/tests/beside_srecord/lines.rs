//! Texts written by hand, each with its answer.

use crate::compare::{import, PATTERN};
use crate::intel_hex::{line, LARGEST};

const END: &str = ":00000001FF\n";
/// A byte at 0.
const DATA: &str = ":0100000011EE\n";

fn answer(text: &str, size: usize) -> u32 {
    import(text.as_bytes(), &vec![PATTERN; size]).0
}

/// The image of 32 bytes that is left, with these bytes in it.
fn leaves(text: &str, bytes: &[(usize, u8)]) {
    let mut image = [PATTERN; 32];
    for (address, byte) in bytes {
        image[*address] = *byte;
    }
    assert_eq!(import(text.as_bytes(), &[PATTERN; 32]), (0, image.to_vec()), "{text:?}");
}

#[test]
fn accepted() {
    leaves(END, &[]);
    leaves(":00000001FF\r\n", &[]);
    leaves(":00000001fF\n", &[]);
    leaves(&format!("{DATA}{END}"), &[(0, 0x11)]);
    leaves(":0100000011EE\r\n:00000001FF\n", &[(0, 0x11)]);
    leaves(":0100000011EE\n:00000001FF\r\n", &[(0, 0x11)]);
    leaves(":03000000aBCdef96\n:00000001Ff\n", &[(0, 0xAB), (1, 0xCD), (2, 0xEF)]);
    // Lines that follow each other, lines with a gap between, and the image's last byte.
    leaves(&format!("{DATA}:0100010022DC\n{END}"), &[(0, 0x11), (1, 0x22)]);
    leaves(&format!("{DATA}:0100020044B9\n:01001F0033AD\n{END}"), &[(0, 0x11), (2, 0x44), (31, 0x33)]);
    // Type 04 lines: first, again, between, lowered, and with no data after them.
    leaves(&format!(":020000040000FA\n{DATA}{END}"), &[(0, 0x11)]);
    leaves(&format!(":020000040000FA\n:020000040000FA\n{DATA}{END}"), &[(0, 0x11)]);
    leaves(&format!("{DATA}:020000040001F9\n:020000040000FA\n:0100010022DC\n{END}"), &[(0, 0x11), (1, 0x22)]);
    leaves(&format!("{DATA}:02000004FFFFFC\n{END}"), &[(0, 0x11)]);
}

#[test]
fn accepted_at_the_limits() {
    // Up to a boundary, and on from it.
    let (boundary, on) = (":02FFFE00667724\n", ":020000040001F9\n:0100000011EE\n");
    let (done, image) = import(format!("{boundary}{on}{END}").as_bytes(), &[PATTERN; 65_537]);
    assert_eq!((done, &image[65_533..]), (0, &[PATTERN, 0x66, 0x77, 0x11][..]));
    // The longest line.
    let text = [line(0, 0, &[0x99; 255]), END.into()].concat();
    assert_eq!(import(&text, &[PATTERN; 255]), (0, vec![0x99; 255]));
    assert_eq!(import(&text, &[PATTERN; 254]), (17, vec![PATTERN; 254]));
    // The last byte of the largest image, and the only one of the smallest.
    let last = format!(":020000040003F7\n:01FFFF00669B\n{END}");
    let (done, image) = import(last.as_bytes(), &[PATTERN; LARGEST]);
    assert_eq!((done, image[LARGEST - 2], image[LARGEST - 1]), (0, PATTERN, 0x66));
    assert_eq!(answer(&last, LARGEST - 1), 17);
    assert_eq!(import(format!("{DATA}{END}").as_bytes(), &[PATTERN]), (0, vec![0x11]));
}

/// 15, and so it stays with a good line before the bad one.
fn malformed(text: &str) {
    assert_eq!(answer(text, 32), 15, "{text:?}");
    assert_eq!(answer(&format!("{DATA}{text}"), 32), 15, "{text:?} after a good line");
}

#[rustfmt::skip]
const MALFORMED: &[&str] = &[
    // No line at all, no mark, something before the mark, and two marks.
    "\n", "\r\n", "0100010022DC\n", " :0100010022DC\n", "\t:0100010022DC\n", ";0100010022DC\n", "::0100010022DC\n",
    // Nothing after the mark, and lines that end too soon.
    ":\n", ":0\n", ":00\n", ":0000\n", ":000000\n", ":00000001\n", ":00000001F\n",
    // The bytes beside the digits, and others.
    ":010001002/DC\n", ":010001002:DC\n", ":010001002@DC\n", ":010001002GDC\n", ":010001002`DC\n", ":010001002gDC\n",
    ":010001002 DC\n", ":010001002\0DC\n", ":01000100+2DC\n", ":010001000xDC\n", ":0100010022DG\n", ":G100010022DC\n",
    ":010001002é\n",
    // A digit too few or too many, a byte too few or too many, a blank at the end.
    ":0100010022D\n", ":0100010022DC0\n", ":01000100DC\n", ":0100010022DC00\n", ":0100010022DC \n", ":0100010022 DC\n",
    // A length that the digits do not have, with a right checksum all the same.
    ":0200000011ED\n", ":010000001122CC\n", ":FF00000011F0\n", ":0000010022DD\n",
    // Other types, with right checksums.
    ":020000021000EC\n", ":0400000300000000F9\n", ":0400000500000000F7\n", ":00000006FA\n", ":010000FF11EF\n",
    // No data byte.
    ":0000000000\n", ":00000100FF\n",
    // Type 04 with another length than two, or another address than 0000.
    ":00000004FC\n", ":0100000400FB\n", ":03000004000000F9\n", ":020001040000F9\n", ":020100040000F9\n",
    // An end line with a byte, or with another address than 0000.
    ":0100000100FE\n", ":00000101FE\n", ":00010001FE\n",
    // Carriage returns that are not the one before the line feed.
    ":0100010022DC\r\r\n", "\r:0100010022DC\n", ":\r0100010022DC\n", ":01000100\r22DC\n", ":0100010022DC\r \n",
    ":0100010022DC\r", ":0100010022DC\r:00000001FF\r\n",
];

#[test]
fn malformed_lines() {
    for line in MALFORMED {
        malformed(line);
        malformed(&format!("{line}{END}"));
    }
}

#[test]
fn ends() {
    // No end line.
    for text in ["", DATA, ":020000040000FA\n", ":0100000011EE\r\n"] {
        assert_eq!(answer(text, 32), 15, "{text:?}");
    }
    // A line, or the end line, that is not closed.
    for text in [":0100000011EE", ":00000001FF", ":00000001FF\r", ":00000001F", ":0", ":"] {
        malformed(text);
    }
    // Anything after the end line.
    for rest in [END, DATA, ":020000040000FA\n", ":0100000011EF\n", "\n", "\r\n", "\r", "\0", " ", ":", "x\n"] {
        malformed(&format!("{END}{rest}"));
        malformed(&format!(":00000001FF\r\n{rest}"));
    }
}

#[rustfmt::skip]
const WRONG_CHECKSUM: &[&str] = &[
    ":0100010022DD\n", ":0100010022DB\n", ":010001002200\n", ":01000100225C\r\n", ":020000040000FB\n", ":00000001FE\n",
    ":0000000100\n",
];

#[test]
fn wrong_checksums() {
    for line in WRONG_CHECKSUM {
        for text in [line.to_string(), format!("{line}{END}"), format!("{DATA}{line}"), format!("{DATA}{line}{END}")] {
            assert_eq!(answer(&text, 32), 16, "{text:?}");
        }
    }
}

#[rustfmt::skip]
const DATA_MISPLACED: &[&str] = &[
    // Outside the image: just behind it, out of it by a byte, by the upper bits, and the highest address there is.
    ":0100200033AC\n", ":02001F00334468\n", ":020000040001F9\n:0100000011EE\n", ":02000004FFFFFC\n:01FFFF00669B\n",
    ":02000004FFFFFC\n:02FFFF00667723\n",
    // Not above the data before: the same byte, the one below, and the last byte of a line.
    ":0100010022DC\n:0100010055A9\n", ":0100010022DC\n:0100000011EE\n", ":0300000011223397\n:0100020044B9\n",
    // The same, with a type 04 line between.
    ":0100010022DC\n:020000040000FA\n:0100010055A9\n",
];

#[test]
fn bad_addresses() {
    for text in DATA_MISPLACED {
        for rest in ["", END, ":", ":0000000100\n"] {
            assert_eq!(answer(&format!("{text}{rest}"), 32), 17, "{text:?}, {rest:?}");
        }
    }
    // Past a 64 KiB boundary within a line, in an image that goes on there; and back below it.
    assert_eq!(answer(&format!(":02FFFF00667723\n{END}"), 131_072), 17);
    assert_eq!(answer(&format!(":020000040001F9\n:02FFFF00667723\n{END}"), LARGEST), 17);
    assert_eq!(answer(&format!(":020000040001F9\n{DATA}:020000040000FA\n:0100010022DC\n{END}"), 131_072), 17);
}

/// "Lowest first within the first bad line."
#[test]
fn first_bad_line_and_lowest_stop() {
    for (text, stop) in [
        // Another type with a wrong checksum; no data and a wrong checksum; a bad digit, outside the image.
        (":0400000500000000F8\n", 15),
        (":0000010000\n", 15),
        (":010020003GAC\n", 15),
        // After the end line, with a wrong checksum or outside the image.
        (":00000001FF\n:0100010022DD\n", 15),
        (":00000001FF\n:0100200033AC\n", 15),
        // A wrong checksum, outside the image; and not above the data before.
        (":0100200033AD\n", 16),
        (":0100010022DC\n:0100000011EF\n", 16),
        // The first of two bad lines.
        (":0100200033AC\n:0100010022DD\n", 17),
        (":0100200033AC\nx\n", 17),
        (":0100010022DD\n:0100200033AC\n", 16),
        (":0100010022DD\nx\n", 16),
        ("x\n:0100010022DD\n", 15),
        ("x\n:0100200033AC\n", 15),
        // No end line, after a line that is bad otherwise.
        (":0100010022DD\n:0100010022DC", 16),
    ] {
        assert_eq!(answer(text, 32), stop, "{text:?}");
        assert_eq!(answer(&format!("{text}{END}"), 32), stop, "{text:?}");
    }
}
