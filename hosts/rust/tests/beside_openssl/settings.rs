//! Document 02, A.12: volume and alert delay "ride in the open part as words with the kind in the top four bits and the value
//! in the other 28". Which lists are read and what a write leaves is worked out here from the request's words, word by word.

use crate::by_hand::{answer, lent, made, started};
use crate::layout::{Checkpoint, Form};
use crate::operations::{Lent, Operation, DONE, GOING_ON, SAVED};
use crate::program::program;
use crate::random::Random;
use crate::running::{output, readme, readme_line, shell};
use godwitshelf::{calls, settings_read, settings_write, Settings, Stop, ALERT_DELAY, LIST_VERSION, VOLUME};
use std::collections::BTreeMap;
use std::fs;
use std::io::Write as _;
use std::path::Path;
use std::process::{Command, Stdio};

/// A kind and a value.
type Word = (u32, u32);

const LIST: u32 = 23;
const KINDS: u32 = 24;
const VALUE: u32 = 25;
const LARGEST: u32 = (1 << 28) - 1;

fn bytes_of(words: &[Word]) -> Vec<u8> {
    words.iter().flat_map(|(kind, value)| (kind << 28 | value).to_be_bytes()).collect()
}

fn words_of(list: &[u8]) -> Vec<Word> {
    let word = |bytes: &[u8]| u32::from_be_bytes(bytes.try_into().unwrap());
    list.chunks_exact(4).map(word).map(|word| (word >> 28, word & LARGEST)).collect()
}

// The request.

fn first_word_right(list: &[u8]) -> bool {
    let first = words_of(list).first().copied();
    list.len() % 4 == 0 && (first == Some((15, 1)) || first == Some((15, 2)))
}

/// The kinds behind the first word.
fn kinds_right(version: u32, kinds: &[u32]) -> bool {
    let count = |kind: u32| kinds.iter().filter(|other| **other == kind).count();
    let others = if version == 2 { 3..=14 } else { 3..=2 };
    let exactly_once = count(1) == 1 && count(2) == 1;
    let at_most_once = others.clone().all(|kind| count(kind) <= 1);
    let the_versions = kinds.iter().all(|kind| *kind == 1 || *kind == 2 || others.contains(kind));
    let rising = kinds.windows(2).all(|pair| pair[0] < pair[1]);
    exactly_once && at_most_once && the_versions && rising
}

fn in_range(kind: u32, value: u32) -> bool {
    match kind {
        1 => value <= 15,
        2 => (5..=300).contains(&value),
        _ => value <= LARGEST,
    }
}

/// The settings of a list by kind, or the lowest number that applies.
fn expected(list: &[u8]) -> Result<BTreeMap<u32, u32>, u32> {
    if !first_word_right(list) {
        return Err(LIST);
    }
    let words = words_of(list);
    let kinds: Vec<u32> = words[1..].iter().map(|word| word.0).collect();
    if !kinds_right(words[0].1, &kinds) {
        return Err(KINDS);
    }
    if !words[1..].iter().all(|(kind, value)| in_range(*kind, *value)) {
        return Err(VALUE);
    }
    Ok(words[1..].iter().copied().collect())
}

/// The list with a setting changed, or the lowest number that applies.
fn expected_written(list: &[u8], kind: u32, value: u32) -> Result<Vec<u8>, u32> {
    let mut stops: Vec<u32> = expected(list).err().into_iter().collect();
    let mut words = words_of(list);
    if kind == 15 || words.iter().all(|word| word.0 != kind) {
        stops.push(KINDS);
    }
    if !in_range(kind, value) {
        stops.push(VALUE);
    }
    if let Some(lowest) = stops.into_iter().min() {
        return Err(lowest);
    }
    for word in words.iter_mut().filter(|word| word.0 == kind) {
        word.1 = value;
    }
    Ok(bytes_of(&words))
}

// The calls.

/// What the reader answers; a stop writes neither number.
fn read(list: &[u8]) -> Result<Settings, u32> {
    let before = (0xAAAA_AAAA, 0x5555_5555);
    let (mut volume, mut delay) = before;
    let answer = calls::settings_read(list, &mut volume, &mut delay);
    let read = if answer == DONE { Ok(Settings { volume, delay }) } else { Err(answer) };
    assert!(answer == DONE || (volume, delay) == before, "{answer}");
    assert_eq!(settings_read(list).map_err(Stop::number), read);
    read
}

/// The list that the writer leaves, or its stop, which leaves the list; no byte around it changes.
fn write(list: &[u8], kind: u32, value: u32) -> Result<Vec<u8>, u32> {
    const AROUND: usize = 8;
    let mut bytes = vec![0x6C; list.len() + 2 * AROUND];
    bytes[AROUND..AROUND + list.len()].copy_from_slice(list);
    let before = bytes.clone();
    let answer = calls::settings_write(&mut bytes[AROUND..AROUND + list.len()], kind, value);
    assert_eq!(bytes[..AROUND], before[..AROUND]);
    assert_eq!(bytes[AROUND + list.len()..], before[AROUND + list.len()..]);
    let mut again = list.to_vec();
    let typed = settings_write(&mut again, kind, value);
    assert_eq!(typed.map_or_else(Stop::number, |()| DONE), answer);
    assert_eq!(again, bytes[AROUND..AROUND + list.len()]);
    if answer != DONE {
        assert_eq!(again, list, "{answer}");
        return Err(answer);
    }
    Ok(again)
}

/// Reads a list as the request says; whether it has no stop.
fn compared(list: &[u8]) -> bool {
    let expected = expected(list).map(|settings| Settings { volume: settings[&1], delay: settings[&2] });
    assert_eq!(read(list), expected, "{:x?}", words_of(list));
    expected.is_ok()
}

/// Writes to a list as the request says; whether there is no stop. What was written reads back as that value, and every other
/// setting as it was.
fn compared_write(list: &[u8], kind: u32, value: u32) -> bool {
    let left = expected_written(list, kind, value);
    assert_eq!(write(list, kind, value), left, "{:x?}, kind {kind}, value {value}", words_of(list));
    let Ok(left) = left else { return false };
    let mut settings = expected(list).unwrap();
    settings.insert(kind, value);
    assert_eq!(expected(&left), Ok(settings));
    compared(&left)
}

/// A list of a version with these kinds and values in range.
fn list_of(version: u32, kinds: impl IntoIterator<Item = u32>, random: &mut Random) -> Vec<u8> {
    let mut words = vec![(15, version)];
    for kind in kinds {
        let value = match kind {
            1 => random.below(16) as u32,
            2 => 5 + random.below(296) as u32,
            _ => random.next() as u32 & LARGEST,
        };
        words.push((kind, value));
    }
    bytes_of(&words)
}

/// The kinds of a version 2 list, of the 4,096 that there are.
fn kinds_of(set: u32) -> impl Iterator<Item = u32> {
    [1, 2].into_iter().chain((3..=14).filter(move |kind| set >> (kind - 3) & 1 == 1))
}

// Kinds.

/// Up to four settings with every kind each, in versions 1 and 2; with first words of other kinds and versions up to two.
#[test]
fn every_kind_in_every_place() {
    let mut random = Random::new(31);
    let mut taken = 0;
    for first in (0..16).flat_map(|kind| (0..4).map(move |version| (kind, version))) {
        let most = if first == (15, 1) || first == (15, 2) { 4 } else { 2 };
        for count in 0..=most {
            for number in 0..16u32.pow(count) {
                let mut list = list_of(0, (0..count).map(|place| number >> (4 * place) & 15), &mut random);
                list[..4].copy_from_slice(&bytes_of(&[first]));
                taken += compared(&list) as usize;
            }
        }
    }
    // Volume and delay in either version; in version 2 with one of the other twelve, or two.
    assert_eq!(taken, 2 + 12 + 12 * 11 / 2);
}

/// Every set of kinds in version 2, with every kind written; and with two of its words exchanged, or one twice.
#[test]
fn every_set_of_kinds() {
    let mut random = Random::new(32);
    for set in 0..1 << 12 {
        let list = list_of(2, kinds_of(set), &mut random);
        assert!(compared(&list));
        for kind in (0..=17).chain([1 << 28, (1 << 28) + 1, 1 << 31, u32::MAX]) {
            let value = if random.chance(1, 2) { 5 + random.below(11) as u32 } else { random.next() as u32 };
            let there = kinds_of(set).any(|other| other == kind);
            assert_eq!(compared_write(&list, kind, value), there && in_range(kind, value));
        }
        let mut words = words_of(&list);
        let (a, b) = (1 + random.below(words.len() - 1), 1 + random.below(words.len() - 1));
        words.swap(a, b);
        assert_eq!(compared(&bytes_of(&words)), a == b);
        words.swap(a, b);
        words.insert(a, words[b]);
        assert_eq!(read(&bytes_of(&words)), Err(KINDS));
        words.remove(a);
        words[0].1 = 1;
        assert_eq!(compared(&bytes_of(&words)), set == 0);
    }
}

// Values.

/// 0 to 400, and around each power of two.
fn values() -> Vec<u32> {
    let around = |power: u32| [power.wrapping_sub(1), power, power.wrapping_add(1)];
    (0..=400).chain((0..32).flat_map(|bit| around(1 << bit))).chain([u32::MAX]).collect()
}

#[test]
fn every_value() {
    let mut random = Random::new(33);
    let full = list_of(2, 1..=14, &mut random);
    let short = list_of(1, 1..=2, &mut random);
    for value in values() {
        for kind in 1..=14 {
            assert_eq!(compared_write(&full, kind, value), in_range(kind, value));
            let mut words = words_of(&full);
            words[kind as usize].1 = value & LARGEST;
            assert_eq!(compared(&bytes_of(&words)), in_range(kind, value & LARGEST));
        }
        for kind in 1..=3 {
            assert_eq!(compared_write(&short, kind, value), kind < 3 && in_range(kind, value));
        }
    }
    let written = |kind, value| write(&short, kind, value).map(|list| read(&list).unwrap());
    assert_eq!(written(VOLUME, 15).map(|settings| settings.volume), Ok(15));
    assert_eq!(written(VOLUME, 16), Err(VALUE));
    assert_eq!(written(ALERT_DELAY, 4), Err(VALUE));
    assert_eq!(written(ALERT_DELAY, 5).map(|settings| settings.delay), Ok(5));
    assert_eq!(written(ALERT_DELAY, 300).map(|settings| settings.delay), Ok(300));
    assert_eq!(written(ALERT_DELAY, 301), Err(VALUE));
    assert_eq!(written(LIST_VERSION, 1), Err(KINDS));
    assert_eq!(write(&full, 14, LARGEST).map(|list| words_of(&list)[14]), Ok((14, LARGEST)));
    assert_eq!(write(&full, 14, LARGEST + 1), Err(VALUE));
}

// Lengths, bits, and anything.

#[test]
fn every_length() {
    let mut random = Random::new(34);
    for kinds in [1..=2, 1..=3, 1..=14] {
        let mut list = list_of(2, kinds, &mut random);
        let whole = list.len();
        // Words of kind 1, which no list goes on with.
        list.resize(whole + 40, 0x11);
        for length in 0..=list.len() {
            let taken = compared(&list[..length]);
            assert_eq!(taken, length % 4 == 0 && (12..=whole).contains(&length), "{length} bytes");
            assert_eq!(compared_write(&list[..length], VOLUME, 3), taken);
        }
    }
    // The longest open part, and one word more.
    let mut longest = list_of(2, 1..=14, &mut random);
    longest.resize(32_772, 0xE0);
    for (length, stop) in [(32_764, KINDS), (32_765, LIST), (32_768, KINDS), (32_772, KINDS)] {
        assert_eq!(read(&longest[..length]), Err(stop));
        assert_eq!(write(&longest[..length], VOLUME, 3), Err(stop));
    }
}

#[test]
fn every_bit() {
    let mut random = Random::new(35);
    for (version, kinds) in [(1, 1..=2), (2, 1..=2), (2, 1..=14)] {
        let list = list_of(version, kinds, &mut random);
        for bit in 0..8 * list.len() {
            let mut other = list.clone();
            other[bit / 8] ^= 0x80 >> (bit % 8);
            compared(&other);
            compared_write(&other, 1 + random.below(14) as u32, random.below(20) as u32);
        }
    }
}

/// Lists with up to three words changed, put in or left out, and the two calls on each; every stop occurs, and the lowest is
/// given where several apply.
#[test]
fn damaged_lists() {
    let mut random = Random::new(36);
    let mut answers = BTreeMap::new();
    let values = values();
    for _ in 0..100_000 {
        let version = 1 + random.below(2) as u32;
        let set = if version == 2 { random.below(1 << 12) as u32 } else { 0 };
        let mut words = words_of(&list_of(version, kinds_of(set), &mut random));
        for _ in 0..random.below(4) {
            let place = random.below(words.len());
            let small = [0, 4, 5, 15, 16, 300, 301];
            match random.below(5) {
                0 => words[place].0 = random.below(16) as u32,
                1 => words[place].1 = random.pick(&small),
                2 => words[place].1 = random.next() as u32 & LARGEST,
                3 => words.insert(place, (random.below(16) as u32, random.pick(&small))),
                _ if words.len() > 1 => drop(words.remove(place)),
                _ => (),
            }
        }
        let mut list = bytes_of(&words);
        if random.chance(1, 50) {
            list.truncate(random.below(list.len() + 1));
        }
        compared(&list);
        let (kind, value) = (random.below(17) as u32, random.pick(&values));
        compared_write(&list, kind, value);
        let of_list = expected(&list).err();
        let of_write = (kind == 15 || words_of(&list).iter().all(|word| word.0 != kind), !in_range(kind, value));
        *answers.entry((of_list, of_write)).or_insert(0) += 1;
    }
    // None, 23, 24 or 25 of the list; the kind refused or not, and the value.
    assert_eq!(answers.len(), 4 * 2 * 2, "{answers:?}");
}

// Readers that know version 1 alone.

/// Goes through the words behind the first and passes over kinds that it does not know.
fn older_by_kind(list: &[u8]) -> Settings {
    let mut settings = Settings { volume: 0, delay: 0 };
    for (kind, value) in words_of(list).into_iter().skip(1) {
        match kind {
            1 => settings.volume = value,
            2 => settings.delay = value,
            _ => (),
        }
    }
    settings
}

/// Takes the second word and the third.
fn older_by_place(list: &[u8]) -> Settings {
    let words = words_of(list);
    Settings { volume: words[1].1, delay: words[2].1 }
}

#[test]
fn readers_that_know_version_1() {
    let mut random = Random::new(37);
    for set in 0..1 << 12 {
        for version in if set == 0 { 1..=2 } else { 2..=2 } {
            let list = list_of(version, kinds_of(set), &mut random);
            let settings = read(&list).unwrap();
            assert_eq!((older_by_kind(&list), older_by_place(&list)), (settings, settings));
        }
    }
}

// In the open part.

for_each_key_length!(saved_cut_looked_up_and_changed);

/// The list of the newest checkpoint, as look's companion hands it back.
fn looked_up(unit: &Lent) -> Vec<u8> {
    let mut copy = unit.clone();
    assert_eq!(answer(Operation::Look, &mut copy), DONE);
    copy.fram[copy.open_start..copy.open_start + copy.open_len].to_vec()
}

/// A unit that is cut now resumes with this list; its volume is changed and saved.
fn resumes_with(unit: &Lent, list: &[u8]) {
    assert_eq!(looked_up(unit), list);
    let mut restarted = unit.clone();
    made(Operation::PowerUp, &mut restarted, 0);
    assert_eq!(looked_up(&restarted), list);
    let changed = write(&looked_up(&restarted), VOLUME, 9).unwrap();
    restarted.open_part = changed.clone();
    made(Operation::Save, &mut restarted, 3);
    assert_eq!(looked_up(&restarted), changed);
    assert_eq!(read(&changed), Ok(Settings { volume: 9, ..read(list).unwrap() }));
    assert_eq!((&changed[..4], &changed[8..]), (&list[..4], &list[8..]));
}

/// Cut before and after each store of a save with another volume.
fn saved_cut_looked_up_and_changed(key_length: usize) {
    let mut random = Random::new(38);
    for set in [0, 1, 0b1000_0001_0000, 0xFFF] {
        let list = list_of(2, kinds_of(set), &mut random);
        let louder = write(&list, VOLUME, (read(&list).unwrap().volume + 1) % 16).unwrap();
        let mut unit = lent(key_length, 3, 2, 256);
        unit.open_part = list.clone();
        made(Operation::FirstSave, &mut unit, 1);
        unit.open_part = louder.clone();
        assert_eq!(started(Operation::Save, &mut unit, 2), DONE);
        resumes_with(&unit, &list);
        // The words of the checkpoint, and then the record.
        for _ in 0..(48 + list.len() + unit.secret.len()) / 4 {
            assert_eq!(answer(Operation::Advance, &mut unit), GOING_ON);
            resumes_with(&unit, &list);
        }
        assert_eq!(answer(Operation::Advance, &mut unit), SAVED);
        resumes_with(&unit, &louder);
    }
}

// The program.

fn viewed(list: &[u8], piece: usize) -> String {
    output(Command::new(program("settings_view")), list, piece)
}

fn lines(words: &[Word]) -> String {
    let line = |(kind, value): &Word| match kind {
        15 => format!("version {value}\n"),
        1 => format!("volume {value}\n"),
        2 => format!("alert delay {value} s\n"),
        _ => format!("kind {kind}: {value}\n"),
    };
    words.iter().map(line).collect()
}

#[test]
fn the_program() {
    let mut random = Random::new(39);
    for set in [0, 1, 0x800, 0xFFF].into_iter().chain((0..40).map(|_| random.below(1 << 12) as u32).collect::<Vec<_>>())
    {
        let list = list_of(2, kinds_of(set), &mut random);
        for piece in [4096, 4, 3] {
            assert_eq!(viewed(&list, piece), lines(&words_of(&list)));
        }
    }
    let mut list = list_of(1, 1..=2, &mut random);
    assert_eq!(viewed(&list, 12), lines(&words_of(&list)));
    list.extend(bytes_of(&[(3, 0)]));
    assert_eq!(viewed(&list, 16), "refused 24\n");
    assert_eq!(viewed(&bytes_of(&[(15, 1), (1, 0), (2, 301)]), 12), "refused 25\n");
    for length in [0, 1, 3, 15] {
        assert_eq!(viewed(&list[..length], 16), "refused 23\n");
    }
    list.resize(32_768, 0xE0);
    assert_eq!(viewed(&list, 4096), "refused 24\n");
    assert_eq!(viewed(&list[..32_767], 4096), "refused 23\n");
}

/// README's line for the bench, on the FRAM of a unit, and of one with an older checkpoint.
#[test]
fn a_list_cut_out_of_a_dump() {
    let folder = Path::new(env!("CARGO_TARGET_TMPDIR")).join("settings");
    fs::create_dir_all(&folder).unwrap();
    let shown_of = |line: &str, fram: &[u8]| {
        fs::write(folder.join("fram.bin"), fram).unwrap();
        shell(line, &folder)
    };
    let of_readme = |end: &str| readme_line(|line| line.ends_with(end));
    let line = of_readme("in half A, of three words");
    let list = bytes_of(&[(15, 1), (1, 3), (2, 30)]);
    let shown = "version 1\nvolume 3\nalert delay 30 s\n";
    let mut unit = lent(32, 3, 2, 128);
    unit.open_part = list.clone();
    made(Operation::FirstSave, &mut unit, 1);
    assert_eq!(shown_of(&line, &unit.fram), shown);
    assert!(shown.lines().all(|line| readme().contains(&format!("`{line}`"))));
    assert_eq!(unit.fram[5..8], [0, 0, 3]);
    unit.open_part = write(&list, VOLUME, 4).unwrap();
    made(Operation::Save, &mut unit, 2);
    assert_eq!(shown_of(&line, &unit.fram), shown);
    assert_eq!(
        shown_of(&of_readme("of one in half B, in a FRAM of 128 bytes"), &unit.fram),
        shown.replace('3', "4").replace("40", "30")
    );
    let older = Checkpoint {
        form: Form::Older,
        packet: 0,
        open_part: list,
        secret: vec![7; 4],
        restarts: 0,
        previous_tag: [9; 16],
        nonce: [1; 12],
    };
    let sealed = older.sealed(&[5; 32]);
    assert_eq!(shown_of(&line, &sealed), "refused 23\n");
    assert_eq!(shown_of(&line.replace("+33", "+29"), &sealed), shown);
    assert!(readme().contains("`tail -c +29`") && sealed[1..4] == [0, 0, 3]);
}

/// The list that the gate runs the program on.
#[test]
fn the_list_of_the_gate() {
    let folder = Path::new(env!("CARGO_MANIFEST_DIR")).join("../../crates/settings_view");
    let words = [(15, 2), (1, 9), (2, 300), (3, 0), (7, 4711), (14, LARGEST)];
    assert_eq!(fs::read(folder.join("stdin")).unwrap(), bytes_of(&words));
    assert_eq!(fs::read_to_string(folder.join("stdout")).unwrap(), lines(&words));
}

/// What is not read or written, or is longer than an open part, is said, once, and nothing else.
#[test]
fn what_cannot_be_read_or_written() {
    let folder = fs::File::open("/").unwrap();
    let output = Command::new(program("settings_view")).stdin(folder).output().unwrap();
    assert_eq!(String::from_utf8_lossy(&output.stderr), "list: standard input: Is a directory\n");
    assert!(output.stdout.is_empty());
    let fed = |list: &[u8], stdout: Stdio| {
        let mut command = Command::new(program("settings_view"));
        let mut child = command.stdin(Stdio::piped()).stdout(stdout).stderr(Stdio::piped()).spawn().unwrap();
        // It may end before it has read all.
        let _ = child.stdin.take().unwrap().write_all(list);
        child.wait_with_output().unwrap()
    };
    let mut random = Random::new(40);
    let mut list = list_of(2, 1..=14, &mut random);
    for list in [&list[..], &list[..4], &[]] {
        let full = fs::OpenOptions::new().write(true).open("/dev/full").unwrap();
        let output = fed(list, full.into());
        assert_eq!(String::from_utf8_lossy(&output.stderr), "standard output could not be written whole\n");
    }
    list.resize(32_772, 0xE0);
    for length in [32_769, 32_772] {
        let output = fed(&list[..length], Stdio::piped());
        assert_eq!(String::from_utf8_lossy(&output.stderr), "list: standard input is longer than an open part\n");
        assert!(output.stdout.is_empty() && output.status.success());
    }
}
