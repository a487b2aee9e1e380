//! Request A.1 worked out anew.

/// "An image not of 1 to 262,144 bytes gives 2."
pub const LARGEST: usize = 262_144;

/// Closes a text.
pub const END: &[u8] = b":00000001FF\n";

/// The mark, these bytes and their checksum in uppercase digits, and the line feed.
pub fn written(bytes: &[u8]) -> Vec<u8> {
    let mut line = b":".to_vec();
    for byte in bytes.iter().chain([&sum(bytes).wrapping_neg()]) {
        line.extend([byte >> 4, byte & 15].map(|digit| b"0123456789ABCDEF"[usize::from(digit)]));
    }
    line.push(b'\n');
    line
}

/// A line with the length of its data.
pub fn line(address: u16, kind: u8, data: &[u8]) -> Vec<u8> {
    let [high, low] = address.to_be_bytes();
    written(&[&[data.len() as u8, high, low, kind], data].concat())
}

fn sum(bytes: &[u8]) -> u8 {
    bytes.iter().fold(0, |sum, byte| sum.wrapping_add(*byte))
}

/// "Export an image as uppercase lines of 16 data bytes (the last may be shorter) ended by a line feed. A type 04 line
/// comes first and again whenever the upper 16 address bits change; the end line closes."
pub fn export(image: &[u8]) -> Vec<u8> {
    let mut text = vec![];
    for (upper, bytes) in (0u16..).zip(image.chunks(0x1_0000)) {
        text.extend(line(0, 4, &upper.to_be_bytes()));
        for (number, data) in (0..).zip(bytes.chunks(16)) {
            text.extend(line(16 * number, 0, data));
        }
    }
    text.extend(END);
    text
}

/// "Bytes no line names keep their contents, and a refused import changes none."
pub fn import(text: &[u8], image: &mut [u8]) -> u32 {
    if !(1..=LARGEST).contains(&image.len()) {
        return 2;
    }
    match named(text, image.len()) {
        Err(stop) => stop,
        Ok(bytes) => {
            for (address, byte) in bytes {
                image[address] = byte;
            }
            0
        }
    }
}

/// The bytes that the text names, or the stop of the first bad line.
fn named(text: &[u8], size: usize) -> Result<Vec<(usize, u8)>, u32> {
    let mut bytes: Vec<(usize, u8)> = vec![];
    // "Upper bits 0 until a type 04."
    let mut upper = 0;
    let mut ended = false;
    for line in text.split_inclusive(|byte| *byte == b'\n') {
        // "15 malformed line, another type, any line after the end line".
        let record = record(line).filter(|_| !ended).ok_or(15u32)?;
        // "16 line checksum wrong".
        if !record.checked {
            return Err(16);
        }
        match record.content {
            Content::End => ended = true,
            Content::Upper(bits) => upper = bits,
            Content::Data(low, data) => {
                // "17 data outside the image, past a 64 KiB boundary within a line, or not above the data before".
                let start = 0x1_0000 * upper + low;
                let above = bytes.last().is_none_or(|(last, _)| start > *last);
                if start + data.len() > size || low + data.len() > 0x1_0000 || !above {
                    return Err(17);
                }
                bytes.extend((start..).zip(data));
            }
        }
    }
    // "Or no end line."
    if ended {
        Ok(bytes)
    } else {
        Err(15)
    }
}

enum Content {
    /// The lower 16 bits of the address, and 1 to 255 bytes.
    Data(usize, Vec<u8>),
    /// The upper 16 bits of the addresses that follow.
    Upper(usize),
    End,
}

struct Record {
    content: Content,
    /// Whether the checksum is right.
    checked: bool,
}

/// The record that a line holds, unless it is malformed or of another type: "Data lines hold 1 to 255 bytes. Type 04
/// lines hold two bytes, the end line none, both with address 0000. Every line closes with its line feed, the end line
/// too." "Either letter case, line feed with or without carriage return."
fn record(line: &[u8]) -> Option<Record> {
    let line = line.strip_suffix(b"\n")?;
    let digits = line.strip_suffix(b"\r").unwrap_or(line).strip_prefix(b":")?;
    let bytes = digits.chunks(2).map(byte).collect::<Option<Vec<u8>>>()?;
    let [length, high, low, kind, data @ .., _checksum] = &bytes[..] else { return None };
    if data.len() != usize::from(*length) {
        return None;
    }
    let address = usize::from(u16::from_be_bytes([*high, *low]));
    let content = match (kind, data, address) {
        (0, [_, ..], _) => Content::Data(address, data.to_vec()),
        (1, [], 0) => Content::End,
        (4, [first, second], 0) => Content::Upper(usize::from(u16::from_be_bytes([*first, *second]))),
        _ => return None,
    };
    Some(Record { content, checked: sum(&bytes) == 0 })
}

/// Two digits.
fn byte(digits: &[u8]) -> Option<u8> {
    let [high, low] = digits else { return None };
    let digit = |digit: u8| char::from(digit).to_digit(16);
    Some((16 * digit(*high)? + digit(*low)?) as u8)
}
