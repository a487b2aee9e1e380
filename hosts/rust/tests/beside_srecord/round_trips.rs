//! Exports and imports that are accepted.

use crate::compare::{export, import, PATTERN};
use crate::intel_hex::{line, END, LARGEST};
use crate::random::Random;
use crate::srec_cat;
use godwitshelf::hex_len;

/// Sizes at which lines and type 04 lines begin or end, and others.
fn sizes(random: &mut Random) -> Vec<usize> {
    let limits = [1, 15, 16, 17, 31, 32, 33, 88, 255, 256, 257, 4096, 131_071, 131_072, 131_073, LARGEST - 1, LARGEST];
    let others: Vec<usize> = (0..40).map(|round| 1 + random.below(LARGEST >> (round % 10))).collect();
    limits.into_iter().chain(65_519..=65_553).chain(others).collect()
}

/// "Importing an export into an equal-sized image restores it"; into a longer image it goes to the front, and a shorter
/// one is refused.
#[test]
fn exports_come_back() {
    let mut random = Random::new(21);
    for size in sizes(&mut random) {
        let image = random.bytes(size);
        let more = random.pick(&[0, 1, 100]);
        let text = export(&image, more);
        assert_eq!(text.len(), hex_len(size));
        assert_eq!(import(&text, &vec![PATTERN; size]), (0, image.clone()));
        if size < LARGEST {
            let more = 1 + random.below((LARGEST - size).min(1000));
            assert_eq!(import(&text, &vec![PATTERN; size + more]), (0, [image, vec![PATTERN; more]].concat()));
        }
        if size > 1 {
            let less = 1 + random.below((size - 1).min(1000));
            assert_eq!(import(&text, &vec![PATTERN; size - less]).0, 17);
        }
    }
}

/// "The last may be shorter": every size of a few lines.
#[test]
fn exports_of_every_size_to_300() {
    let image = Random::new(22).bytes(300);
    for size in 1..=300 {
        let text = export(&image[..size], size % 3);
        assert_eq!(import(&text, &vec![PATTERN; size]), (0, image[..size].to_vec()));
    }
}

/// SRecord writes the same text, if its lines have 16 bytes too, and reads the image from it.
#[test]
fn exports_beside_srecord() {
    let mut random = Random::new(23);
    let limits = [1, 15, 16, 17, 88, 131_072, LARGEST].into_iter().chain(65_535..=65_553);
    for size in limits.chain((0..20).map(|_| 1 + random.below(LARGEST))).collect::<Vec<_>>() {
        let image = random.bytes(size);
        let text = export(&image, 0);
        assert!(srec_cat::read("exports", &text) == image, "an export of {size} bytes");
        assert!(
            srec_cat::write("exports", &image, &[], &["-output-block-size=16"]) == text,
            "an image of {size} bytes"
        );
    }
}

/// A text with digits in the other letter case, or with a carriage return before each line feed, or both.
fn variants(text: &[u8]) -> [Vec<u8>; 4] {
    let returns = |text: &[u8]| String::from_utf8_lossy(text).replace('\n', "\r\n").into_bytes();
    let lower = text.to_ascii_lowercase();
    [text.to_vec(), returns(text), returns(&lower), lower]
}

/// SRecord's texts with lines of other lengths, across the 64 KiB boundaries where they divide them.
#[test]
fn imports_beside_srecord() {
    let mut random = Random::new(24);
    let widths = [1, 2, 4, 8, 16, 32, 64, 128].map(|width| format!("-output-block-size={width}"));
    let lengths = ["-line-length=28", "-line-length=44", "-line-length=76"].map(String::from);
    for option in widths.iter().chain(&lengths) {
        for size in [1, 100, 65_535, 65_536, 65_537, 66_000, 131_073, 200_000] {
            let image = random.bytes(size);
            for text in variants(&srec_cat::write("imports", &image, &[], &[option])) {
                assert_eq!(import(&text, &vec![PATTERN; size]), (0, image.clone()), "{option}, {size} bytes");
            }
        }
    }
}

/// Lines whose lengths do not divide 64 KiB. SRecord lets such a line run past the boundary, which "gives 17".
#[test]
fn uneven_imports_beside_srecord() {
    let mut random = Random::new(25);
    for option in ["-output-block-size=3", "-output-block-size=7", "-output-block-size=100", "-line-length=70"] {
        for size in [1, 100, 65_535, 65_536] {
            let image = random.bytes(size);
            for text in variants(&srec_cat::write("uneven", &image, &[], &[option])) {
                assert_eq!(import(&text, &vec![PATTERN; size]), (0, image.clone()), "{option}, {size} bytes");
            }
        }
        let text = srec_cat::write("uneven", &random.bytes(66_000), &[], &[option]);
        assert_eq!(import(&text, &[PATTERN; 66_000]).0, 17, "{option}");
    }
    // The longest lines that there are, 255 bytes.
    let image = random.bytes(65_536);
    let text = srec_cat::write("uneven", &image, &[], &["-output-block-size=255"]);
    assert!(text.starts_with(b":020000040000FA\n:FF"));
    assert_eq!(import(&text, &[PATTERN; 65_536]), (0, image));
}

/// "Bytes no line names keep their contents": an image with holes, the first of them at its front.
#[test]
fn holes_beside_srecord() {
    let mut random = Random::new(26);
    let image = random.bytes(200_000);
    let kept = [3..20, 500..501, 65_520..65_552, 130_000..131_100, 199_999..200_000];
    let places: Vec<String> =
        kept.iter().flat_map(|stretch| [stretch.start, stretch.end]).map(|n| n.to_string()).collect();
    let crop: Vec<&str> = ["-crop"].into_iter().chain(places.iter().map(String::as_str)).collect();
    let mut expected = vec![PATTERN; image.len()];
    for stretch in kept {
        expected[stretch.clone()].copy_from_slice(&image[stretch]);
    }
    for text in
        variants(&srec_cat::write("holes", &image, &crop, &["-output-block-size=16", "-output-block-alignment"]))
    {
        assert_eq!(import(&text, &vec![PATTERN; image.len()]), (0, expected.clone()));
    }
}

/// A byte to a line, and a type 04 line before each: the longest text that names each byte once, but for more type 04
/// lines.
#[test]
fn many_lines() {
    let image = Random::new(27).bytes(LARGEST);
    let mut text = vec![];
    for (address, byte) in image.iter().enumerate() {
        text.extend(line(0, 4, &((address >> 16) as u16).to_be_bytes()));
        text.extend(line(address as u16, 0, &[*byte]));
    }
    text.extend(END);
    assert_eq!(import(&text, &[PATTERN; LARGEST]), (0, image));
}
