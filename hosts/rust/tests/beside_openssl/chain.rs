//! Document 02, A.11: "Give the positions, counted from 0, one byte each, in chain order: all own tags differ, the first
//! entry's previous tag is no entry's own tag, and each later one names the entry before it. Refuse precisely if no such
//! order exists". Dumps of the keeper's own checkpoints are put back into the order in which they were made; of few entries
//! every order is tried.

use crate::by_hand::{answer, lent, made, started};
use crate::firmware::{Firmware, KEEPER};
use crate::histories::generated;
use crate::layout::{half_of, number, open_half, read_ring, tag_of, Checkpoint, Form, Reading};
use crate::operations::{Lent, Operation, DONE, GOING_ON};
use crate::program::program;
use crate::random::Random;
use crate::running::{output, readme, readme_line, shell};
use godwitshelf::{calls, chain_order, Stop};
use std::collections::{BTreeMap, BTreeSet};
use std::fs;
use std::io::Write as _;
use std::path::Path;
use std::process::{Command, Stdio};

type Tag = [u8; 16];

/// A checkpoint's previous tag and its own.
#[derive(Clone, Copy, Debug, PartialEq)]
struct Entry {
    previous: Tag,
    own: Tag,
}

const BAD_ENTRIES: u32 = 21;
const TOO_SHORT: u32 = 4;
const NO_ORDER: u32 = 22;

fn bytes_of(entries: &[Entry]) -> Vec<u8> {
    entries.iter().flat_map(|entry| [entry.previous, entry.own]).flatten().collect()
}

/// The call's order or its stop. A refusal writes nothing, and an order no byte before or behind it.
fn sorted(entries: &[Entry]) -> Result<Vec<usize>, u32> {
    called(&bytes_of(entries), entries.len() + 3)
}

fn called(entries: &[u8], room: usize) -> Result<Vec<usize>, u32> {
    const AROUND: usize = 8;
    let before: Vec<u8> = (0..room + 2 * AROUND).map(|i| 0xC0 ^ i as u8).collect();
    let mut positions = before.clone();
    let answer = calls::chain_order(entries, &mut positions[AROUND..AROUND + room]);
    let written = if answer == DONE { entries.len() / 32 } else { 0 };
    assert_eq!(positions[..AROUND], before[..AROUND], "{answer}");
    assert_eq!(positions[AROUND + written..], before[AROUND + written..], "{answer}");
    let mut again = before.clone();
    let typed = chain_order(entries, &mut again[AROUND..AROUND + room]);
    assert_eq!(typed.map_or_else(Stop::number, |()| DONE), answer);
    assert_eq!(again, positions);
    match answer {
        DONE => Ok(positions[AROUND..][..written].iter().map(|position| *position as usize).collect()),
        stop => Err(stop),
    }
}

/// Entries in any order, and the places of a chain's entries among them.
fn shuffled(chain: &[Entry], random: &mut Random) -> (Vec<Entry>, Vec<usize>) {
    let mut from: Vec<usize> = (0..chain.len()).collect();
    for i in (1..from.len()).rev() {
        from.swap(i, random.below(i + 1));
    }
    let mut places = vec![0; chain.len()];
    for (position, place) in from.iter().enumerate() {
        places[*place] = position;
    }
    (from.iter().map(|place| chain[*place]).collect(), places)
}

/// A chain that no keeper made, of random tags.
fn made_up(count: usize, random: &mut Random) -> Vec<Entry> {
    let tags: Vec<Tag> = (0..=count).map(|_| random.bytes(16).try_into().unwrap()).collect();
    tags.windows(2).map(|pair| Entry { previous: pair[0], own: pair[1] }).collect()
}

// Dumps of the keeper's own.

for_each_key_length!(dumps_of_long_lives);

/// The entry of the newest checkpoint, out of the memories that a firmware left.
fn dumped(firmware: Firmware, lent: &Lent) -> Entry {
    let Reading::Newest(newest) = read_ring(lent.pages, lent.slots, &lent.ring) else { panic!("nothing recorded") };
    let half = half_of(&lent.fram, newest.half);
    let (checkpoint, own) = open_half(firmware, half, &lent.key, &newest.record[..12]).unwrap();
    Entry { previous: checkpoint.previous_tag, own }
}

/// A dump after each record of a history, in which older firmware, cuts and restarts occur.
fn dumps(seed: u64) -> Vec<Entry> {
    let mut dumps = Vec::new();
    let ended = generated(seed).run_seen(|unit| {
        assert!(unit.book.n <= dumps.len() + 1, "two records in one event");
        if unit.book.n > dumps.len() {
            dumps.push(dumped(unit.firmware, &unit.lent));
        }
    });
    ended.unwrap_or_else(|(at, words)| panic!("seed {seed}, event {at}: {words}"));
    dumps
}

/// Dumps that were taken from one checkpoint of a unit up to another, put back in order; and with one missed, or taken twice.
fn put_back(all: &[Entry], random: &mut Random) {
    let from = random.below(all.len());
    let count = 1 + random.below((all.len() - from).min(64));
    let chain = &all[from..from + count];
    let (entries, places) = shuffled(chain, random);
    assert_eq!(sorted(&entries), Ok(places));
    if count > 2 {
        let mut gap = chain.to_vec();
        gap.remove(1 + random.below(count - 2));
        assert_eq!(sorted(&shuffled(&gap, random).0), Err(NO_ORDER), "one was missed");
    }
    if count < 64 {
        let mut twice = chain.to_vec();
        twice.push(random.pick(chain));
        assert_eq!(sorted(&shuffled(&twice, random).0), Err(NO_ORDER), "one was taken twice");
    }
}

#[test]
fn dumps_of_histories() {
    let mut random = Random::new(11);
    let mut lengths = BTreeSet::new();
    for seed in 1..=120 {
        let all = dumps(seed);
        lengths.insert(all.len());
        for _ in 0..if all.is_empty() { 0 } else { 12 } {
            put_back(&all, &mut random);
        }
    }
    assert!((0..=13).all(|length| lengths.contains(&length)), "{lengths:?}");
}

/// Units that save and are restarted a hundred times, and go around their rings.
fn dumps_of_long_lives(key_length: usize) {
    let mut random = Random::new(21);
    for (pages, slots) in [(3, 2), (4, 3), (3, 16)] {
        let mut unit = lent(key_length, pages, slots, 128);
        let mut all = Vec::new();
        for packet in 1..=100 {
            let operation = match all.len() {
                0 => Operation::FirstSave,
                _ if random.chance(1, 3) => Operation::PowerUp,
                _ => Operation::Save,
            };
            made(operation, &mut unit, packet);
            all.push(dumped(KEEPER, &unit));
        }
        let (entries, places) = shuffled(&all[36..], &mut random);
        assert_eq!(sorted(&entries), Ok(places));
        for _ in 0..50 {
            put_back(&all, &mut random);
        }
    }
}

/// Two units' dumps together.
#[test]
fn dumps_of_two_units() {
    let mut random = Random::new(12);
    let lots: Vec<Vec<Entry>> = (1..40).map(dumps).filter(|dumps| (1..=32).contains(&dumps.len())).collect();
    for pair in lots.windows(2) {
        let both = pair.concat();
        assert_eq!(sorted(&shuffled(&both, &mut random).0), Err(NO_ORDER));
    }
    assert!(lots.len() > 10);
}

/// A save that is cut before its record leaves a whole checkpoint in the half that the ring does not name. The power-up names
/// the same one before it.
#[test]
fn a_checkpoint_that_was_not_recorded() {
    let mut random = Random::new(22);
    let mut unit = lent(32, 3, 4, 128);
    made(Operation::FirstSave, &mut unit, 1);
    let first = dumped(KEEPER, &unit);
    assert_eq!(started(Operation::Save, &mut unit, 2), DONE);
    let words = number(&unit.job[16..20]) as usize / 4;
    for _ in 0..words {
        assert_eq!(answer(Operation::Advance, &mut unit), GOING_ON);
    }
    let Reading::Newest(newest) = read_ring(3, 4, &unit.ring) else { panic!("nothing recorded") };
    let half = half_of(&unit.fram, 1 - newest.half);
    let (checkpoint, own) = open_half(KEEPER, half, &unit.key, &unit.job[28..40]).unwrap();
    let draft = Entry { previous: checkpoint.previous_tag, own };
    assert_eq!(draft.previous, first.own);
    made(Operation::PowerUp, &mut unit, 0);
    let second = dumped(KEEPER, &unit);
    made(Operation::Save, &mut unit, 3);
    let third = dumped(KEEPER, &unit);
    assert_eq!(sorted(&[third, first, second]), Ok(vec![1, 2, 0]));
    assert_eq!(sorted(&[draft, first]), Ok(vec![1, 0]));
    for entries in [vec![first, draft, second], vec![first, draft, third], vec![first, draft, second, third]] {
        assert_eq!(sorted(&shuffled(&entries, &mut random).0), Err(NO_ORDER));
    }
}

/// coreutils' tsort orders pairs likewise, and begins with the tag that the first entry names.
#[test]
fn beside_tsort() {
    let mut random = Random::new(13);
    let hex = |tag: Tag| tag.iter().map(|byte| format!("{byte:02x}")).collect::<String>();
    for seed in 1..=30 {
        let all = dumps(seed);
        if all.is_empty() {
            continue;
        }
        let (entries, _) = shuffled(&all[..all.len().min(64)], &mut random);
        let pairs: String =
            entries.iter().map(|entry| format!("{} {}\n", hex(entry.previous), hex(entry.own))).collect();
        let order = sorted(&entries).unwrap();
        let mut tags = vec![hex(entries[order[0]].previous)];
        tags.extend(order.iter().map(|position| hex(entries[*position].own)));
        assert_eq!(
            output(Command::new("tsort"), pairs.as_bytes(), 4096).lines().collect::<Vec<_>>(),
            tags,
            "seed {seed}"
        );
    }
}

// Every order tried.

fn permutations(count: usize) -> Vec<Vec<usize>> {
    if count == 0 {
        return vec![vec![]];
    }
    let with_last = |shorter: Vec<usize>| {
        (0..count).map(move |at| {
            let mut longer = shorter.clone();
            longer.insert(at, count - 1);
            longer
        })
    };
    permutations(count - 1).into_iter().flat_map(with_last).collect()
}

/// The request's three conditions, of entries in this order.
fn is_chain_order(entries: &[Entry], order: &[usize]) -> bool {
    let all_own_tags_differ = (0..entries.len()).all(|i| (0..i).all(|j| entries[i].own != entries[j].own));
    let first_names_none = entries.iter().all(|entry| entries[order[0]].previous != entry.own);
    let each_later_one_names_the_entry_before =
        order.windows(2).all(|pair| entries[pair[1]].previous == entries[pair[0]].own);
    all_own_tags_differ && first_names_none && each_later_one_names_the_entry_before
}

/// Compares the call with all orders, of which at most one is a chain order; whether one is.
fn tried(entries: &[Entry], orders: &[Vec<usize>]) -> bool {
    let mut right = orders.iter().filter(|order| is_chain_order(entries, order));
    let expected = right.next().cloned().ok_or(NO_ORDER);
    assert!(right.next().is_none(), "two orders of {entries:?}");
    assert_eq!(sorted(entries), expected, "{entries:?}");
    expected.is_ok()
}

/// One to three entries, and tags that are equal or differ in every way.
#[test]
fn every_case_of_up_to_three() {
    for count in 1..=3 {
        let orders = permutations(count);
        let letters = 2 * count;
        let mut with_order = 0;
        for number in 0..letters.pow(2 * count as u32) {
            let letter = |at: usize| [(number / letters.pow(at as u32) % letters) as u8; 16];
            let entries: Vec<Entry> =
                (0..count).map(|i| Entry { previous: letter(2 * i), own: letter(2 * i + 1) }).collect();
            with_order += tried(&entries, &orders) as usize;
        }
        // A row of count + 1 different tags, and its entries in any order.
        let rows: usize = (letters - count..=letters).product();
        assert_eq!(with_order, rows * orders.len());
    }
}

#[test]
fn random_cases_of_up_to_six() {
    let mut random = Random::new(14);
    let orders: Vec<Vec<Vec<usize>>> = (0..=6).map(permutations).collect();
    let mut seen = BTreeMap::new();
    for _ in 0..30_000 {
        let count = 1 + random.below(6);
        // Tags that differ everywhere, in one byte, or in a few bits.
        let other: Vec<Tag> = match random.below(3) {
            0 => (0..=count + 1).map(|_| random.bytes(16).try_into().unwrap()).collect(),
            1 => {
                let at = random.below(16);
                (0..=count + 1).map(|i| std::array::from_fn(|k| if k == at { i as u8 } else { 7 })).collect()
            }
            _ => {
                let bit = random.below(121);
                (0..=count + 1).map(|i| (1u128 << 127 | (i as u128) << bit).to_be_bytes()).collect()
            }
        };
        let mut chain: Vec<Entry> = (0..count).map(|i| Entry { previous: other[i], own: other[i + 1] }).collect();
        // None to three tags are others, or all are any.
        let changes = random.pick(&[0, 1, 1, 1, 2, 3, 100]);
        for _ in 0..changes {
            let at = random.below(count);
            let tag = random.pick(&other);
            if random.chance(1, 2) {
                chain[at].previous = tag;
            } else {
                chain[at].own = tag;
            }
        }
        let entries = shuffled(&chain, &mut random).0;
        *seen.entry((count, tried(&entries, &orders[count]))).or_insert(0) += 1;
    }
    for count in 1..=6 {
        for there in [false, true] {
            assert!(seen.get(&(count, there)).is_some_and(|times| *times > 100), "{count} entries, {there}: {seen:?}");
        }
    }
}

// What has no order, one by one.

/// The cases of each kind in every number of entries, mixed in any order.
fn refused(what: &str, fewest: usize, change: impl Fn(&mut [Entry], &mut Random)) {
    let mut random = Random::new(15);
    for count in fewest..=64 {
        for _ in 0..10 {
            let mut chain = made_up(count, &mut random);
            let (entries, places) = shuffled(&chain, &mut random);
            assert_eq!(sorted(&entries), Ok(places), "{count} entries");
            change(&mut chain, &mut random);
            assert_eq!(sorted(&shuffled(&chain, &mut random).0), Err(NO_ORDER), "{count} entries: {what}");
        }
    }
}

#[test]
fn a_cycle() {
    refused("the first names the last", 1, |chain, _| chain[0].previous = chain[chain.len() - 1].own);
    refused("the first names a later one", 2, |chain, random| {
        chain[0].previous = chain[1 + random.below(chain.len() - 1)].own;
    });
    refused("a cycle beside a chain", 3, |chain, random| {
        let from = 1 + random.below(chain.len() - 2);
        chain[from].previous = chain[chain.len() - 1].own;
    });
    refused("two cycles", 2, |chain, random| {
        let from = 1 + random.below(chain.len() - 1);
        chain[from].previous = chain[chain.len() - 1].own;
        chain[0].previous = chain[from - 1].own;
    });
}

#[test]
fn an_entry_that_names_itself() {
    refused("it names itself", 1, |chain, random| {
        let at = random.below(chain.len());
        chain[at].previous = chain[at].own;
    });
}

#[test]
fn two_first_entries() {
    refused("two name none", 2, |chain, random| {
        let at = 1 + random.below(chain.len() - 1);
        chain[at].previous = random.bytes(16).try_into().unwrap();
    });
    refused("two name the one before the first", 2, |chain, random| {
        let at = 1 + random.below(chain.len() - 1);
        chain[at].previous = chain[0].previous;
    });
}

#[test]
fn two_successors_of_one_entry() {
    refused("two name one entry", 3, |chain, random| {
        let at = 2 + random.below(chain.len() - 2);
        chain[at].previous = chain[random.below(at - 1)].own;
    });
}

#[test]
fn equal_own_tags() {
    refused("two have one own tag", 2, |chain, random| {
        let at = random.below(chain.len());
        let other = (at + 1 + random.below(chain.len() - 1)) % chain.len();
        chain[at].own = chain[other].own;
    });
    // The last of a chain may have any own tag but another's.
    refused("the last has another's", 2, |chain, random| {
        let last = chain.len() - 1;
        chain[last].own = chain[random.below(last)].own;
    });
}

/// Every bit of a tag counts.
#[test]
fn one_bit_of_a_tag() {
    let mut random = Random::new(16);
    let chain = made_up(3, &mut random);
    for bit in 0..128 {
        for which in 1..5 {
            let mut other = chain.clone();
            let tag = if which % 2 == 0 { &mut other[which / 2].previous } else { &mut other[which / 2].own };
            tag[bit / 8] ^= 1 << (bit % 8);
            assert_eq!(sorted(&other), Err(NO_ORDER), "bit {bit} of tag {which}");
        }
        // Own tags that differ in this bit alone.
        let mut near = chain.clone();
        near[2].own = near[0].own;
        near[2].own[bit / 8] ^= 1 << (bit % 8);
        assert_eq!(sorted(&near), Ok(vec![0, 1, 2]), "bit {bit}");
        // The first previous tag is the last's own; then the first's; then it differs from both in a bit or two.
        near[0].previous = near[2].own;
        assert_eq!(sorted(&near), Err(NO_ORDER), "bit {bit}");
        near[0].previous[bit / 8] ^= 1 << (bit % 8);
        assert_eq!(sorted(&near), Err(NO_ORDER), "bit {bit}");
        near[0].previous[(bit / 8 + 1) % 16] ^= 1;
        assert_eq!(sorted(&near), Ok(vec![0, 1, 2]), "bit {bit}");
    }
}

// Lengths.

#[test]
fn the_first_number_that_applies() {
    let mut random = Random::new(17);
    let bytes = random.bytes(70 * 32);
    for length in 0..=bytes.len() {
        let count = length / 32;
        let right = length % 32 == 0 && (1..=64).contains(&count);
        for room in [0, 1, count.saturating_sub(1), count, 64, 100] {
            let expected = match () {
                () if !right => Some(BAD_ENTRIES),
                () if room < count => Some(TOO_SHORT),
                // Random entries have no order, but for one alone.
                () if count > 1 => Some(NO_ORDER),
                () => None,
            };
            assert_eq!(called(&bytes[..length], room).err(), expected, "{length} bytes, room for {room}");
        }
    }
    for count in 1..=64 {
        let (entries, places) = shuffled(&made_up(count, &mut random), &mut random);
        for room in 0..70 {
            let expected = if room < count { Err(TOO_SHORT) } else { Ok(places.clone()) };
            assert_eq!(called(&bytes_of(&entries), room), expected);
        }
    }
}

// The program.

fn viewed(entries: &[u8], piece: usize) -> String {
    output(Command::new(program("chain_view")), entries, piece)
}

fn lines(places: &[usize]) -> String {
    places.iter().map(|position| format!("{position}\n")).collect()
}

#[test]
fn the_program() {
    let mut random = Random::new(18);
    for count in 1..=64 {
        let (entries, places) = shuffled(&made_up(count, &mut random), &mut random);
        for piece in [4096, 16, 7] {
            assert_eq!(viewed(&bytes_of(&entries), piece), lines(&places));
        }
    }
    let bytes = bytes_of(&made_up(65, &mut random));
    assert_eq!(viewed(&bytes[..64 * 32], 4096), lines(&(0..64).collect::<Vec<_>>()));
    for length in [0, 1, 31, 33, 63, 64 * 32 - 1, 64 * 32 + 1, 65 * 32] {
        assert_eq!(viewed(&bytes[..length], 4096), "refused 21\n", "{length} bytes");
    }
    assert_eq!(viewed(&[&bytes[..64], &bytes[96..128]].concat(), 4096), "refused 22\n");
}

/// A checkpoint of a chain, with parts of 8 bytes and 4.
fn checkpoint(form: Form, number: u8, previous_tag: Tag) -> Checkpoint {
    Checkpoint {
        form,
        packet: 0,
        open_part: b"volume 3".to_vec(),
        secret: b"0:00".to_vec(),
        restarts: 0,
        previous_tag,
        nonce: std::array::from_fn(|i| if i == 0 { number } else { 0 }),
    }
}

/// The entries that the gate runs the program on: a unit is saved and restarted in turn, and the fourth checkpoint stands
/// first, then the first, the fifth, the second and the third.
#[test]
fn the_entries_of_the_gate() {
    let mut key = [0; 16];
    key[0] = 7;
    let mut starting_tag = [0; 16];
    starting_tag[0] = 9;
    let mut chain: Vec<Entry> = Vec::new();
    for number in 0..5 {
        let previous = chain.last().map_or(starting_tag, |entry| entry.own);
        // Every second one is a power-up's: the same packet number, and one restart.
        let saved = number - number % 2;
        let made = Checkpoint {
            packet: saved.into(),
            restarts: (number % 2).into(),
            ..checkpoint(Form::Longer, number + 1, previous)
        };
        chain.push(Entry { previous, own: made.tag(&key) });
    }
    let folder = Path::new(env!("CARGO_MANIFEST_DIR")).join("../../crates/chain_view");
    let entries = [3, 0, 4, 1, 2].map(|number: usize| chain[number]);
    assert_eq!(fs::read(folder.join("stdin")).unwrap(), bytes_of(&entries));
    assert_eq!(fs::read_to_string(folder.join("stdout")).unwrap(), lines(&[1, 3, 4, 0, 2]));
    assert_eq!(sorted(&entries), Ok(vec![1, 3, 4, 0, 2]));
}

/// README's lines for the bench, on images of a unit's FRAM, and on checkpoints of both forms.
#[test]
fn tags_cut_out_of_dumps() {
    let folder = Path::new(env!("CARGO_TARGET_TMPDIR")).join("chain");
    fs::create_dir_all(&folder).unwrap();
    let run = |line: &str| shell(line, &folder);
    let of_readme = |begin: &str| readme_line(|line| line.starts_with(begin));
    let key = [5; 32];
    let mut previous = [1; 16];
    let mut chain = Vec::new();
    for number in 0..4 {
        // Older firmware made the first two.
        let form = if number < 2 { Form::Older } else { Form::Longer };
        chain.push(checkpoint(form, number, previous).sealed(&key));
        previous = tag_of(chain.last().unwrap());
    }
    // The last two of them in half A and in half B.
    let mut fram = vec![0xEE; 128];
    fram[..60].copy_from_slice(&chain[3]);
    fs::write(folder.join("fram1.bin"), &fram).unwrap();
    fram[64..124].copy_from_slice(&chain[2]);
    fs::write(folder.join("fram2.bin"), &fram).unwrap();
    assert_eq!(run(&of_readme("head -c 60")), "");
    assert_eq!(run(&of_readme("tail -c +65")), "");
    let sorting = of_readme("for dump in");
    assert_eq!(run(&sorting), "1\n0\n");
    // In the older form the previous tag stands earlier.
    fs::write(folder.join("a.bin"), &chain[1]).unwrap();
    fs::write(folder.join("b.bin"), &chain[0]).unwrap();
    assert_eq!(run(&sorting), "refused 22\n");
    assert_eq!(run(&sorting.replace("+17", "+13")), "1\n0\n");
    assert!(readme().contains("(`tail -c +13`)") && chain[1][0] == 0x40 && chain[1].len() == 56);
    // All four.
    let entry = |sealed: &[u8], at: usize| [&sealed[at..at + 16], &tag_of(sealed)[..]].concat();
    let all = [entry(&chain[2], 16), entry(&chain[1], 12), entry(&chain[3], 16), entry(&chain[0], 12)];
    assert_eq!(viewed(&all.concat(), 16), lines(&[3, 1, 0, 2]));
}

/// What is not read or written is said, once, and nothing else.
#[test]
fn what_cannot_be_read_or_written() {
    let mut random = Random::new(19);
    let folder = fs::File::open("/").unwrap();
    let output = Command::new(program("chain_view")).stdin(folder).output().unwrap();
    assert_eq!(String::from_utf8_lossy(&output.stderr), "entries: standard input: Is a directory\n");
    assert!(output.stdout.is_empty());
    for entries in [bytes_of(&made_up(20, &mut random)), random.bytes(64), vec![]] {
        let full = fs::OpenOptions::new().write(true).open("/dev/full").unwrap();
        let mut command = Command::new(program("chain_view"));
        let mut child = command.stdin(Stdio::piped()).stdout(full).stderr(Stdio::piped()).spawn().unwrap();
        child.stdin.take().unwrap().write_all(&entries).unwrap();
        let output = child.wait_with_output().unwrap();
        assert_eq!(String::from_utf8_lossy(&output.stderr), "standard output could not be written whole\n");
    }
}
