//! Every cut of a whole save and of a whole power-up, in every place of the newest record, with several leftovers; then
//! every cut of the power-up that follows; after each a power-up that must resume the checkpoint recorded last. The save
//! and the power-up are the keeper's, with a key of either length, or an older firmware's; the power-ups that follow are the
//! keeper's.

use crate::firmware::{Firmware, DOCUMENT_01, KEEPER};
use crate::unit::{Heard, Left, Setup, Unit};

const LEFT: [Left; 7] =
    [Left::Nothing, Left::Whole, Left::Every(0), Left::Every(1), Left::Every(0xFF), Left::Any(11), Left::Records(12)];

#[derive(Clone, Copy, Debug)]
enum Start {
    FirstSave,
    Save,
    PowerUp,
}

impl Start {
    /// Every other save hears no newer packet.
    fn on(self, unit: &mut Unit) -> Result<(), String> {
        let heard = if unit.book.n % 2 == 0 { Heard::Same } else { Heard::More(1) };
        match self {
            Start::FirstSave => unit.first_save(heard, vec![0xA1; 4], vec![0xA2; 8]),
            Start::Save => unit.save(0, heard, vec![0xB1; 8], vec![0xB2; 4]),
            Start::PowerUp => unit.power_up().map(|_| ()),
        }
    }
}

/// The unit after every cut of a job that is out: between two stores, and into each with each leftover.
fn after_every_cut(unit: &Unit) -> Result<Vec<(String, Unit)>, String> {
    let mut cut = Vec::new();
    let mut running = unit.clone();
    for made in 0.. {
        let mut between = running.clone();
        between.cut();
        cut.push((format!("after {made} stores"), between));
        if running.book.to_come().is_empty() {
            break;
        }
        for left in LEFT {
            let mut into = running.clone();
            into.cut_into(left)?;
            cut.push((format!("into store {}, leaving {left:?}", made + 1), into));
        }
        running.advance()?;
    }
    Ok(cut)
}

fn every_cut_of(unit: &Unit, start: Start) -> Result<(), String> {
    let mut started = unit.clone();
    start.on(&mut started)?;
    for (first, unit) in after_every_cut(&started)? {
        let here = |words: String| format!("{start:?} cut {first}: {words}");
        unit.trial().map_err(here)?;
        unit.trial_of_other_keys().map_err(here)?;
        let mut again = unit.clone();
        again.update(KEEPER);
        again.power_up().map_err(here)?;
        for (second, unit) in after_every_cut(&again).map_err(here)? {
            unit.trial().map_err(|words| here(format!("power-up cut {second}: {words}")))?;
        }
    }
    Ok(())
}

/// Records in every place of the ring, twice around; every third is a power-up's.
fn every_cut(firmware: Firmware, key_length: usize, pages: usize, slots: usize, half: usize) -> Result<(), String> {
    let mut unit = Unit::new(&Setup { pages, slots, fram: 2 * half, firmware, key_length, seed: 7 });
    every_cut_of(&unit, Start::FirstSave)?;
    for n in 0..2 * pages * slots {
        let start = match n {
            0 => Start::FirstSave,
            _ if n % 3 == 0 => Start::PowerUp,
            _ => Start::Save,
        };
        start.on(&mut unit)?;
        while !unit.book.to_come().is_empty() {
            unit.advance()?;
        }
        for start in [Start::Save, Start::PowerUp] {
            every_cut_of(&unit, start).map_err(|words| format!("{} records: {words}", n + 1))?;
        }
    }
    Ok(())
}

for_each_key_length!(every_cut_on_3_pages_of_2_slots, every_cut_on_4_pages_of_2_slots);

fn every_cut_on_3_pages_of_2_slots(key_length: usize) {
    every_cut(KEEPER, key_length, 3, 2, 48 + 12).unwrap_or_else(|words| panic!("{words}"));
}

fn every_cut_on_4_pages_of_2_slots(key_length: usize) {
    every_cut(KEEPER, key_length, 4, 2, 48 + 12).unwrap_or_else(|words| panic!("{words}"));
}

#[test]
fn every_cut_of_document_01s_firmware() {
    every_cut(DOCUMENT_01, 32, 3, 2, 48 + 12).unwrap_or_else(|words| panic!("{words}"));
}

/// Its checkpoints fill their halves, so that a power-up gives 4.
#[test]
fn every_cut_of_document_01s_firmware_in_full_halves() {
    every_cut(DOCUMENT_01, 32, 3, 2, 44 + 12).unwrap_or_else(|words| panic!("{words}"));
}
