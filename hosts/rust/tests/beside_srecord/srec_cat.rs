//! SRecord's program `srec_cat`, over files.

use std::path::{Path, PathBuf};
use std::process::Command;
use std::{env, fs};

/// A file for one test alone.
pub fn file(name: &str) -> PathBuf {
    Path::new(env!("CARGO_TARGET_TMPDIR")).join(name)
}

fn run(words: &[&str]) {
    let ran = Command::new("srec_cat").args(words).output().expect("srec_cat, of Debian's package srecord");
    assert!(ran.status.success(), "srec_cat {words:?}: {}", String::from_utf8_lossy(&ran.stderr));
}

/// The image that it reads from a text, in files that are called after `name`.
pub fn read(name: &str, text: &[u8]) -> Vec<u8> {
    let (from, to) = (file(&format!("{name}.read.hex")), file(&format!("{name}.read.bin")));
    fs::write(&from, text).unwrap();
    run(&[from.to_str().unwrap(), "-intel", "-output", to.to_str().unwrap(), "-binary"]);
    fs::read(to).unwrap()
}

/// The text that it writes of an image, with filters of the image and options of the text.
pub fn write(name: &str, image: &[u8], filters: &[&str], options: &[&str]) -> Vec<u8> {
    let (from, to) = (file(&format!("{name}.write.bin")), file(&format!("{name}.write.hex")));
    fs::write(&from, image).unwrap();
    let input = [&[from.to_str().unwrap(), "-binary"], filters].concat();
    let output = ["-output", to.to_str().unwrap(), "-intel", "-address-length=4"];
    run(&[&input[..], &output, options].concat());
    let text = fs::read(to).unwrap();
    let types: Vec<&[u8]> = text.split(|byte| *byte == b'\n').filter_map(|line| line.get(7..9)).collect();
    assert!(types.iter().all(|kind| [b"00", b"01", b"04"].contains(&<&[u8; 2]>::try_from(*kind).unwrap())));
    text
}
