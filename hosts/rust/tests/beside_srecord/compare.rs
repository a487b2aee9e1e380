//! An export and an import made by the keeper and by the request, on the same bytes.

use crate::intel_hex;
use godwitshelf::calls;

/// What images and buffers hold before a call.
pub const PATTERN: u8 = 0x5A;

/// The keeper's export, in a buffer that is `more` bytes longer.
pub fn export(image: &[u8], more: usize) -> Vec<u8> {
    let expected = intel_hex::export(image);
    let mut text = vec![PATTERN; expected.len() + more];
    let mut length = usize::MAX;
    assert_eq!(calls::hex_export(image, &mut text, &mut length), 0, "image of {} bytes", image.len());
    assert_eq!(length, expected.len(), "image of {} bytes", image.len());
    assert!(text[..length] == expected, "the text of an image of {} bytes", image.len());
    assert!(text[length..].iter().all(|byte| *byte == PATTERN), "behind the text of {} bytes", image.len());
    expected
}

/// The keeper's import into this image: its answer, and the image after it.
pub fn import(text: &[u8], image: &[u8]) -> (u32, Vec<u8>) {
    let (mut found, mut expected) = (image.to_vec(), image.to_vec());
    let answer = calls::hex_import(text, &mut found);
    let expected_answer = intel_hex::import(text, &mut expected);
    let shown = || format!("into {} bytes: {}", image.len(), text[..text.len().min(2000)].escape_ascii());
    assert_eq!(answer, expected_answer, "{}", shown());
    if let Some(at) = (0..image.len()).find(|at| found[*at] != expected[*at]) {
        panic!("byte {at} is {:#04x}, not {:#04x}, {}", found[at], expected[at], shown());
    }
    (answer, found)
}
