//! The programs `hex_export` and `hex_import`.

use crate::compare::PATTERN;
use crate::intel_hex::{self, line, END, LARGEST};
use crate::program::program;
use crate::random::Random;
use crate::srec_cat::{self, file};
use std::fs::{self, File};
use std::process::Command;

/// What a program writes to standard output and standard error, with these bytes on standard input.
fn run(test: &str, name: &str, words: &[&str], input: &[u8]) -> (Vec<u8>, String) {
    let program = program(name);
    let from = file(&format!("{test}.{name}"));
    fs::write(&from, input).unwrap();
    let ran = Command::new(&program).args(words).stdin(File::open(from).unwrap()).output();
    let ran = ran.unwrap_or_else(|why| panic!("{}: {why}", program.display()));
    (ran.stdout, String::from_utf8_lossy(&ran.stderr).into_owned())
}

fn accepted(output: Vec<u8>) -> (Vec<u8>, String) {
    (output, String::new())
}

fn refused(stop: u32) -> (Vec<u8>, String) {
    (vec![], format!("refused {stop}\n"))
}

#[test]
fn images_through_both_programs() {
    let mut random = Random::new(41);
    for size in [1, 15, 16, 17, 88, 4096, 65_535, 65_536, 65_537, 131_072, LARGEST] {
        let image = random.bytes(size);
        let text = intel_hex::export(&image);
        assert!(run("images", "hex_export", &[], &image) == accepted(text.clone()), "an image of {size} bytes");
        let back = run("images", "hex_import", &[&size.to_string()], &text);
        assert!(back == accepted(image.clone()), "a text of {size} bytes");
        let theirs = srec_cat::write("images", &image, &[], &["-output-block-size=32"]);
        let back = run("images", "hex_import", &[&size.to_string()], &theirs);
        assert!(back == accepted(image), "SRecord's text of {size} bytes");
    }
}

/// Bytes that no line names are 0xFF.
#[test]
fn holes_in_an_imported_image() {
    let text = [line(3, 0, &[PATTERN; 4]), line(0, 4, &[0, 1]), line(1, 0, &[PATTERN; 255]), END.to_vec()].concat();
    let mut image = vec![0xFF; 65_800];
    image[3..7].fill(PATTERN);
    image[65_537..65_792].fill(PATTERN);
    for text in [text.clone(), text.to_ascii_lowercase()] {
        assert!(run("holes", "hex_import", &["65800"], &text) == accepted(image.clone()));
    }
    assert_eq!(run("holes", "hex_import", &["20"], END), accepted(vec![0xFF; 20]));
}

#[test]
fn refusals() {
    let image = vec![PATTERN; LARGEST + 1];
    assert_eq!(run("refusals", "hex_export", &[], &image), refused(2));
    assert_eq!(run("refusals", "hex_export", &[], b""), refused(2));
    let data = b":0100010055A9\n".to_vec();
    let text = [&data, END].concat();
    for (size, text, stop) in [
        ("0", text.clone(), 2),
        ("262145", text.clone(), 2),
        ("2", vec![], 15),
        ("2", data.clone(), 15),
        ("2", text[..text.len() - 1].to_vec(), 15),
        ("2", [&text[..], b"\n"].concat(), 15),
        ("2", b":0100010055AA\n:00000001FF\n".to_vec(), 16),
        ("1", text.clone(), 17),
        ("2", [&data[..], &text].concat(), 17),
    ] {
        assert_eq!(run("refusals", "hex_import", &[size], &text), refused(stop));
    }
    assert_eq!(run("refusals", "hex_import", &["2"], &text), accepted(vec![0xFF, 0x55]));
}
