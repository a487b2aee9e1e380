//! Lengths of images and buffers, and what the typed calls add to the plain ones.

use crate::compare::PATTERN;
use crate::intel_hex::{END, LARGEST};
use crate::random::Random;
use godwitshelf::{calls, hex_export, hex_import, hex_len, Stop};

fn untouched(bytes: &[u8]) -> bool {
    bytes.iter().all(|byte| *byte == PATTERN)
}

/// An export that stops writes neither text nor length.
fn stops(image: &[u8], buffer: usize, stop: u32) {
    let mut text = vec![PATTERN; buffer];
    let mut length = 77;
    assert_eq!(calls::hex_export(image, &mut text, &mut length), stop, "{} into {buffer}", image.len());
    assert!(length == 77 && untouched(&text), "{} into {buffer}", image.len());
}

/// "An export buffer too short 4."
#[test]
fn short_buffers() {
    let image = Random::new(31).bytes(LARGEST);
    for size in [1, 16, 17, 88, 65_536, 65_537, 131_072, LARGEST] {
        for buffer in [0, 1, 15, 16, hex_len(size) - 13, hex_len(size) - 12, hex_len(size) - 1] {
            stops(&image[..size], buffer, 4);
        }
    }
}

/// "The buffer behind it keeps its contents."
#[test]
fn long_buffers() {
    let image = Random::new(32).bytes(65_537);
    for size in [1, 16, 17, 88, 65_536, 65_537] {
        for more in [0, 1, 12, 1000] {
            let mut text = vec![PATTERN; hex_len(size) + more];
            assert_eq!(hex_export(&image[..size], &mut text), Ok(hex_len(size)));
            assert!(text[..hex_len(size)].ends_with(END) && untouched(&text[hex_len(size)..]));
        }
    }
}

/// "An image not of 1 to 262,144 bytes gives 2", before 4 and before a look at the text.
#[test]
fn wrong_image_lengths() {
    let image = vec![PATTERN; LARGEST + 100];
    for size in [0, LARGEST + 1, LARGEST + 100] {
        for buffer in [0, 27, 1_000_000] {
            stops(&image[..size], buffer, 2);
        }
        for text in [&b""[..], b"x", b":0000000100\n", b":0100000055AA\n:00000001FF\n", END] {
            let mut image = image[..size].to_vec();
            assert_eq!(calls::hex_import(text, &mut image), 2);
            assert!(untouched(&image));
        }
    }
    assert_eq!(hex_len(1), 42);
    assert_eq!(hex_len(LARGEST), 720_972);
    let mut text = vec![0; 720_972];
    assert_eq!(hex_export(&image[..LARGEST], &mut text), Ok(720_972));
    assert_eq!(hex_import(&text, &mut [0; LARGEST]), Ok(()));
}

#[test]
fn stops_by_name() {
    let mut text = [0; 100];
    let mut image = [PATTERN; 2];
    assert_eq!(hex_export(&[], &mut text), Err(Stop::FramSize));
    assert_eq!(hex_export(&image, &mut text[..43]), Err(Stop::BufferSize));
    assert_eq!(hex_import(END, &mut []), Err(Stop::FramSize));
    assert_eq!(hex_import(b"", &mut image), Err(Stop::BadLine));
    assert_eq!(hex_import(b":0000000100\n", &mut image), Err(Stop::BadChecksum));
    assert_eq!(hex_import(b":0100020055A8\n:00000001FF\n", &mut image), Err(Stop::DataMisplaced));
    assert!(untouched(&image));
    assert_eq!(hex_import(b":0100010055A9\n:00000001FF\n", &mut image), Ok(()));
    assert_eq!(image, [PATTERN, 0x55]);
}
