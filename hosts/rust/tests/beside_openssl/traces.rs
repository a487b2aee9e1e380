//! Document 02, A.4: the lines of the program `bench_trace`, beside those that the documents' operations give; these are
//! held against the book here, memories included. The key is of 32 zero bytes, or of 16 if the program's argument says so.
//! The program's own memories do not show in its lines, nor does its key.

use crate::book::{Book, Cut};
use crate::firmware::KEEPER;
use crate::layout::{blank, read_ring, Reading};
use crate::operations::*;
use crate::program::program;
use crate::random::Random;
use crate::unit::stopped;
use std::collections::BTreeSet;
use std::fmt::Write as _;
use std::io::Write as _;
use std::process::{Command, Stdio};
use std::rc::Rc;
use std::time::{Duration, Instant};

// "the top four bits are the kind here: 1 first save, 2 save, 3 power-up, 4 cut"

fn first_save(value: u32) -> u32 {
    1 << 28 | value
}

fn save(value: u32) -> u32 {
    2 << 28 | value
}

fn power_up(value: u32) -> u32 {
    3 << 28 | value
}

fn cut(stores: u32) -> u32 {
    4 << 28 | stores
}

fn bytes(words: &[u32]) -> Vec<u8> {
    words.iter().flat_map(|word| word.to_be_bytes()).collect()
}

/// What the program, with these arguments, writes to standard output and to standard error.
fn run(arguments: &[&str], trace: &[u8]) -> (String, String) {
    let program = program("bench_trace");
    let mut command = Command::new(&program);
    command.args(arguments).stdin(Stdio::piped()).stdout(Stdio::piped()).stderr(Stdio::piped());
    let mut started = command.spawn().unwrap_or_else(|why| panic!("{}: {why}", program.display()));
    // The program may stop reading before the end of a trace that is too long.
    let _ = started.stdin.take().unwrap().write_all(trace);
    let ran = started.wait_with_output().unwrap();
    assert!(ran.status.success(), "{:?}", ran);
    (String::from_utf8(ran.stdout).unwrap(), String::from_utf8(ran.stderr).unwrap())
}

/// The arguments that ask for a key of this length: it is 32 where there are none.
fn arguments(key_length: usize) -> &'static [&'static [&'static str]] {
    match key_length {
        32 => &[&[], &["32"]],
        _ => &[&["16"]],
    }
}

/// What the program prints with a key of this length, however it is asked for.
fn printed(key_length: usize, trace: &[u8]) -> String {
    let texts: BTreeSet<(String, String)> = arguments(key_length).iter().map(|words| run(words, trace)).collect();
    match Vec::from_iter(texts).as_slice() {
        [(text, complaint)] if complaint.is_empty() => text.clone(),
        other => panic!("for the trace {trace:02x?}: {other:?}"),
    }
}

// What the documents say that it prints.

struct Unit {
    lent: Lent,
    book: Book,
    session: Option<Vec<u8>>,
    /// Which answers each kind of start gave.
    answers: BTreeSet<(u32, u32)>,
}

impl Unit {
    /// "Open part empty, key and starting tag zero, ring 3 by 2, FRAM 128 bytes, both blank at first, FRAM all 0xFF."
    fn new(key_length: usize) -> Unit {
        let key = vec![0; key_length];
        let lent = Lent {
            pages: 3,
            slots: 2,
            ring: vec![0xFF; 96],
            fram: vec![0xFF; 128],
            key: key.clone(),
            nonce: vec![0; 12],
            starting_tag: vec![0; 16],
            session: vec![0; session_length(KEEPER.form)],
            packet: 0,
            open_part: vec![],
            secret: vec![0; 4],
            staging: vec![0; 64],
            state: Rc::new(vec![0; KEEPER.part_limit]),
            job: vec![0; job_length(KEEPER.form)],
            secret_len: 0,
            restarts: 0,
            open_start: 0,
            open_len: 0,
        };
        Unit { lent, book: Book::new(&key, 2), session: None, answers: BTreeSet::new() }
    }

    /// The start's answer. "At the start and after a cut there is no session; a save then prints `refused 6` on a blank
    /// ring, else `refused 8`."
    fn start(&mut self, kind: u32, value: u32) -> u32 {
        let c = &mut self.lent;
        // "the low 28 bits are the nonce as a 12-byte number, most significant byte first, the packet number and the
        // single secret word"
        c.nonce = [[0; 8].to_vec(), value.to_be_bytes().to_vec()].concat();
        c.packet = value;
        c.secret = value.to_be_bytes().to_vec();
        let answer = match (kind, &self.session) {
            (1, _) => perform(KEEPER, Operation::FirstSave, c),
            (2, None) if blank(&c.ring) => 6,
            (2, None) => 8,
            (2, Some(session)) => {
                c.session = session.clone();
                perform(KEEPER, Operation::Save, c)
            }
            _ => perform(KEEPER, Operation::PowerUp, c),
        };
        if !stopped(answer) {
            match kind {
                1 => self.book.first_save(KEEPER.form, &c.nonce, &c.starting_tag, c.packet, &c.open_part, &c.secret),
                2 => self.book.save(KEEPER.form, &c.nonce, c.packet, &c.open_part, &c.secret),
                _ => self.book.power_up(KEEPER.form, &c.nonce),
            }
        }
        self.answers.insert((kind, answer));
        answer
    }

    /// The operation, with the cut that is set, and the line that is printed. "A cut at or past the operation's last store,
    /// or with the operation refused, falls after the operation."
    fn operate(&mut self, kind: u32, value: u32, cut: Option<u32>) -> String {
        let answer = self.start(kind, value);
        if !stopped(answer) {
            let stores = self.book.to_come().len();
            for _ in 0..cut.map_or(stores, |cut| stores.min(cut as usize)) {
                let answer = perform(KEEPER, Operation::Advance, &mut self.lent);
                assert!(!stopped(answer));
                self.book.advance();
                assert_eq!(answer == GOING_ON, !self.book.to_come().is_empty());
                if answer != GOING_ON {
                    self.session = Some(self.lent.session.clone());
                }
            }
        }
        if cut.is_some() {
            self.book.cut(Cut::Between);
            self.session = None;
        }
        self.as_booked();
        if stopped(answer) {
            return format!("refused {answer}");
        }
        self.line()
    }

    /// Ringview's line (document 01, "Bench values").
    fn line(&self) -> String {
        match read_ring(3, 2, &self.lent.ring) {
            Reading::WhollyBlank => "blank".into(),
            Reading::NotReadable => "refused 7".into(),
            Reading::Newest(newest) => {
                let pending = newest.pending.map_or("none".into(), |page| page.to_string());
                let half = ["A", "B"][newest.half];
                format!("page {} slot {} half {half} pending {pending}", newest.page, newest.slot)
            }
        }
    }

    /// The memories here hold what the book has recorded. Records go round the slots, and to A and B in turn.
    fn as_booked(&self) {
        let Some(entry) = &self.book.entry else {
            assert!(blank(&self.lent.ring));
            return;
        };
        let Reading::Newest(newest) = read_ring(3, 2, &self.lent.ring) else {
            panic!("something was recorded, and the ring has no newest record");
        };
        let last = self.book.n - 1;
        assert_eq!((newest.page, newest.slot, newest.half), (last / 2 % 3, last % 2, last % 2));
        assert_eq!(newest.pending.is_some(), self.book.owed);
        assert_eq!(newest.record[..12], entry.nonce);
        let sealed = entry.sealed(&self.lent.key);
        assert_eq!(self.lent.fram[64 * newest.half..][..sealed.len()], sealed);
        assert_eq!(self.book.power_ups, entry.restarts as usize);
    }
}

/// "20 another kind, two cuts in a row, a cut with nothing after it, a broken word or too many words; the whole trace is
/// checked before the first operation, and `refused 20` is then the only line"
fn wrong(trace: &[u8]) -> bool {
    let kinds: Vec<u8> = trace.chunks(4).map(|word| word[0] >> 4).collect();
    trace.len() % 4 != 0
        || kinds.len() > 4096
        || kinds.iter().any(|kind| !(1..=4).contains(kind))
        || kinds.windows(2).any(|two| two == [4, 4])
        || kinds.last() == Some(&4)
}

/// What is to be printed, and which answers each kind of start gave.
fn expected(key_length: usize, trace: &[u8]) -> (String, BTreeSet<(u32, u32)>) {
    if wrong(trace) {
        return ("refused 20\n".into(), BTreeSet::new());
    }
    let mut unit = Unit::new(key_length);
    let mut text = String::new();
    let mut cut = None;
    for word in trace.chunks(4) {
        let word = u32::from_be_bytes(word.try_into().unwrap());
        let (kind, value) = (word >> 28, word & 0xFFF_FFFF);
        if kind == 4 {
            cut = Some(value);
        } else {
            writeln!(text, "{}", unit.operate(kind, value, cut.take())).unwrap();
        }
    }
    (text, unit.answers)
}

/// The program prints what the documents say.
fn compare(key_length: usize, trace: &[u8]) -> BTreeSet<(u32, u32)> {
    let (text, answers) = expected(key_length, trace);
    assert_eq!(printed(key_length, trace), text, "for the trace {trace:02x?}");
    answers
}

for_each_key_length!(written_by_hand, repeated_nonces, wrong_traces, random_traces, longest_traces);

// The lines of the records in turn, where no page is pending: they go round the slots, and to A and B in turn.
const R1: &str = "page 0 slot 0 half A pending none";
const R2: &str = "page 0 slot 1 half B pending none";
const R3: &str = "page 1 slot 0 half A pending none";
const R4: &str = "page 1 slot 1 half B pending none";
const R5: &str = "page 2 slot 0 half A pending none";
const R6: &str = "page 2 slot 1 half B pending none";

/// Traces with their lines written by hand. A checkpoint has 52 bytes, so 13 words and a record: 14 stores, 15 with an
/// erase.
fn written_by_hand(key_length: usize) {
    let restarts: Vec<u32> = (2..10).map(power_up).collect();
    let eight: [&str; 9] = [R1, R2, R3, R4, R5, R6, R1, R2, R3];
    let traces: [(Vec<u32>, Vec<&str>); 9] = [
        (vec![], vec![]),
        // With nothing recorded; a cut before the first store, and one before the record.
        (
            vec![
                save(1),
                power_up(2),
                cut(0),
                first_save(3),
                save(4),
                cut(13),
                first_save(5),
                power_up(6),
                first_save(7),
            ],
            vec!["refused 6", "refused 6", "blank", "refused 6", "blank", "refused 6", R1],
        ),
        // Round the ring.
        (
            vec![first_save(1), save(2), save(3), save(4), power_up(5), save(6), save(7)],
            vec![R1, R2, R3, R4, R5, R6, R1],
        ),
        // A cut between record and erase leaves a page pending; the next power-up erases it first, and may be cut there.
        (
            vec![
                first_save(1),
                save(2),
                cut(14),
                save(3),
                save(4),
                cut(0),
                power_up(5),
                cut(1),
                power_up(6),
                power_up(7),
            ],
            vec![R1, R2, "page 1 slot 0 half A pending 0", "refused 8", "page 1 slot 0 half A pending 0", R3, R4],
        ),
        // Before the record, and at and past the last store, after which there is no session.
        (
            vec![first_save(1), cut(13), save(2), save(3), power_up(4), cut(15), save(5), save(6), power_up(7)],
            vec![R1, R1, "refused 8", R2, R3, "refused 8", R4],
        ),
        (
            vec![first_save(1), cut(14), save(2), save(3), power_up(4), cut(0xFFF_FFFF), save(5), save(6)],
            vec![R1, R2, "refused 8", R3, R4, "refused 8"],
        ),
        // A refused operation leaves the session; a cut that is set for one takes it.
        (
            vec![first_save(1), first_save(2), save(3), power_up(3), save(4), cut(3), first_save(5), save(6)],
            vec![R1, "refused 5", R2, "refused 10", R3, "refused 5", "refused 8"],
        ),
        // Eight restarts, with a new nonce and with the newest one, and a save with a newer packet number.
        (
            [vec![first_save(1)], restarts.clone(), vec![power_up(10), power_up(9), save(9), save(11), power_up(12)]]
                .concat(),
            [eight.to_vec(), vec!["refused 13", "refused 13", "refused 10", R4, R5]].concat(),
        ),
        // A save with an older packet number leaves the restarts.
        (
            [vec![first_save(50)], restarts, vec![save(49), power_up(12), power_up(49)]].concat(),
            [eight.to_vec(), vec![R4, "refused 13", "refused 13"]].concat(),
        ),
    ];
    for (words, lines) in traces {
        let text: String = lines.iter().map(|line| format!("{line}\n")).collect();
        assert_eq!(printed(key_length, &bytes(&words)), text, "for the trace {words:08x?}");
        assert_eq!(expected(key_length, &bytes(&words)).0, text, "for the trace {words:08x?}");
    }
}

/// A nonce is refused while a record of the newest page has it, and may come again later. The cut rule does not speak of
/// such traces.
fn repeated_nonces(key_length: usize) {
    let words =
        [first_save(1), save(1), save(2), save(1), power_up(2), save(3), save(1), save(3), power_up(1), power_up(2)];
    let lines = [R1, "refused 10", R2, "refused 10", "refused 10", R3, R4, "refused 10", "refused 10", R5];
    let text: String = lines.iter().map(|line| format!("{line}\n")).collect();
    assert_eq!(printed(key_length, &bytes(&words)), text);
    assert_eq!(expected(key_length, &bytes(&words)).0, text);
}

/// Stop 20, before any line.
fn wrong_traces(key_length: usize) {
    let good = [first_save(1), cut(3), save(2), power_up(3)];
    let with = |at: usize, word: u32| {
        let mut words = good.to_vec();
        words.insert(at, word);
        bytes(&words)
    };
    for at in 0..=good.len() {
        for kind in [0].into_iter().chain(5..16) {
            assert_eq!(printed(key_length, &with(at, kind << 28 | 7)), "refused 20\n");
        }
    }
    // Two cuts in a row, and a cut with nothing after it.
    for at in [1, 2, 4] {
        assert_eq!(printed(key_length, &with(at, cut(1))), "refused 20\n");
    }
    assert_eq!(printed(key_length, &bytes(&[cut(0)])), "refused 20\n");
    // A broken word.
    let whole = bytes(&good);
    for length in 0..=whole.len() {
        let broken = length % 4 != 0 || length == 8;
        assert_eq!(printed(key_length, &whole[..length]) == "refused 20\n", broken, "with {length} bytes");
        compare(key_length, &whole[..length]);
    }
    // Too many words.
    let mut longest = vec![first_save(1)];
    longest.resize(4096, save(2));
    compare(key_length, &bytes(&longest));
    for more in [1, 4, 5, 100_000] {
        let mut trace = bytes(&longest);
        trace.resize(trace.len() + more, 0x20);
        assert_eq!(printed(key_length, &trace), "refused 20\n");
    }
}

/// The values of a trace's operations: all different, or few, so that nonces repeat and packet numbers fall.
fn values(random: &mut Random, differ: bool) -> Vec<u32> {
    let few = random.pick(&[2, 3, 8]);
    let mut values: Vec<u32> = match differ {
        false => (0..400).map(|_| random.below(few) as u32).collect(),
        true => (0..400).map(|i| i * random.pick(&[1, 1 << 8, 1 << 19])).collect(),
    };
    if differ {
        values.sort();
        values.dedup();
        // Some traces have falling numbers, so that saves keep their restarts.
        match random.below(3) {
            0 => values.reverse(),
            1 => values.sort_by_cached_key(|_| random.next()),
            _ => (),
        }
    }
    values
}

fn generated(random: &mut Random, differ: bool) -> Vec<u32> {
    let mut values = values(random, differ).into_iter();
    let length = 1 + random.below(80);
    let (saves, cuts) = (random.pick(&[5, 30, 70]), random.pick(&[0, 10, 40]));
    let mut words = vec![];
    if random.chance(9, 10) {
        words.push(first_save(values.next().unwrap()));
    }
    while words.len() < length {
        if random.chance(cuts, 100) {
            // Mostly near the end, where record and erases are.
            let stores = if random.chance(1, 2) { 12 + random.below(6) } else { random.below(20) };
            words.push(cut(if random.chance(1, 20) { 0xFFF_FFFF } else { stores as u32 }));
        }
        let value = values.next().unwrap();
        words.push(match random.below(100) {
            0..5 => first_save(value),
            n if n < 5 + saves => save(value),
            _ => power_up(value),
        });
    }
    words
}

/// Random traces whose nonces all differ, of which the cut rule speaks, and others whose nonces repeat. Every answer that
/// a trace can get occurs.
fn random_traces(key_length: usize) {
    for (differ, answers) in [
        (true, [(1, 0), (1, 5), (2, 0), (2, 6), (2, 8), (3, 0), (3, 6), (3, 13)].as_slice()),
        (false, &[(1, 0), (1, 5), (2, 0), (2, 6), (2, 8), (2, 10), (3, 0), (3, 6), (3, 10), (3, 13)]),
    ] {
        let mut random = Random::new(if differ { 51 } else { 52 });
        let mut given = BTreeSet::new();
        for _ in 0..400 {
            let mut trace = bytes(&generated(&mut random, differ));
            // In some an operation or a cut becomes a cut or a word of another kind, so that no nonce comes in.
            if random.chance(1, 20) {
                let at = 4 * random.below(trace.len() / 4);
                trace[at] = trace[at] & 0x0F | random.pick(&[0, 4, 5, 8, 15]) << 4;
            }
            given.append(&mut compare(key_length, &trace));
        }
        assert_eq!(given.into_iter().collect::<Vec<_>>(), answers);
    }
}

/// The longest traces take less than a second each: saves and power-ups without a cut, and with a cut in every second
/// power-up, some far past its last store.
fn longest_traces(key_length: usize) {
    let mut random = Random::new(53);
    let mut whole = vec![first_save(0)];
    whole.extend((1..4096).map(|i| if random.chance(1, 2) { power_up(i) } else { save(i) }));
    let mut cut_often = vec![first_save(0)];
    for i in 0..1023 {
        let stores = random.pick(&[3, 14, 15, 0xFFF_FFFF]);
        cut_often.extend([power_up(3 * i + 1), save(3 * i + 2), cut(stores), power_up(3 * i + 3)]);
    }
    for words in [whole, cut_often] {
        let trace = bytes(&words);
        for words in arguments(key_length) {
            let start = Instant::now();
            let (text, complaint) = run(words, &trace);
            assert!(start.elapsed() < Duration::from_secs(1));
            assert_eq!((text, complaint), (expected(key_length, &trace).0, String::new()));
        }
    }
}

/// Any other argument than `16` and `32`, and any two: a message on standard error, and no line, whatever the trace.
#[test]
fn wrong_arguments() {
    let good = bytes(&[first_save(1), save(2)]);
    // Linux passes no longer ones.
    let long = ["16", "32", "1", "0"].map(|front| front.to_string() + &"0".repeat(131_071 - front.len()));
    let mut wrong: Vec<Vec<&str>> = ["", "0", "1", "3", "6", "2", "8", "24", "31", "33", "61", "23", "128", "256"]
        .into_iter()
        .chain([
            "016", "032", "16 ", " 16", "16\n", "+16", "-16", "0x10", "160", "161", "1616", "3232", "1632", "16,32",
        ])
        .chain(["--help", "-", "sixteen", "16 bytes"])
        .chain(long.iter().map(String::as_str))
        .map(|word| vec![word])
        .collect();
    for words in [["16", "16"], ["16", "32"], ["32", "32"], ["32", "16"], ["", "16"], ["16", ""], ["24", "32"]] {
        wrong.push(words.to_vec());
    }
    wrong.push(vec!["32", "32", "32"]);
    for words in wrong {
        for trace in [&good[..], &[], &good[..3]] {
            let (text, complaint) = run(&words, trace);
            let words: Vec<&str> = words.iter().map(|word| &word[..word.len().min(20)]).collect();
            assert!(text.is_empty() && !complaint.is_empty(), "with the arguments {words:?}: {text:?}, {complaint:?}");
        }
    }
}
