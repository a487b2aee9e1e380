//! Document 02, A.6, case by case: "At power-up the used-nonce rule and the rules about the half can both hold … At power-up
//! 11, 12 and 13 now go before 10, and the resealing's 4 goes after 10."

use crate::by_hand::*;
use crate::firmware::{Firmware, A_2, A_5, FIRMWARES, KEEPER};
use crate::key_lengths::of_other_length;
use crate::layout::{record, Checkpoint, Form};
use crate::operations::*;
use std::rc::Rc;

for_each_key_length!(
    a_worn_unit_with_a_used_nonce,
    a_driver_with_a_stuck_source_hears_of_13,
    each_choice_of_what_is_wrong,
    what_stands_around_them,
    a_save_keeps_its_order,
);

/// The answer to a power-up on copies, with a state buffer and a job buffer of that firmware's; the keeper's own call is
/// held against the documents besides. A stop leaves everything.
fn powered_up_by(firmware: Firmware, lent: &Lent, change: impl FnOnce(&mut Lent)) -> u32 {
    let mut copy = lent.clone();
    copy.job = vec![0x55; job_length(firmware.form)];
    copy.state = Rc::new(vec![0x44; firmware.part_limit]);
    change(&mut copy);
    let before = copy.clone();
    let found = match firmware {
        KEEPER => answer(Operation::PowerUp, &mut copy),
        older => perform(older, Operation::PowerUp, &mut copy),
    };
    assert!(found == DONE || copy == before, "a power-up by {} firmware stops and changes something", firmware.name);
    found
}

/// A unit that restarted 8 times, with 4 slots a page, so that the newest page has several records.
fn worn(key_length: usize) -> Lent {
    let mut unit = lent(key_length, 3, 4, 128);
    made(Operation::FirstSave, &mut unit, 1);
    for _ in 0..8 {
        made(Operation::PowerUp, &mut unit, 0);
    }
    // Nine records: the newest is alone on its page, and three saves that hear nothing new join it.
    for _ in 0..3 {
        made(Operation::Save, &mut unit, 1);
    }
    unit
}

/// "the driver tries another nonce while the alert stays silent": with A.5's firmware it did, and with the keeper's a worn unit
/// says so at once, whatever its nonce. To a key of 16 bytes A.5's says 3.
fn a_worn_unit_with_a_used_nonce(key_length: usize) {
    let unit = worn(key_length);
    let newest = unit.nonce[11];
    for last in newest - 3..=newest {
        let older = powered_up_by(A_5, &unit, |c| c.nonce[11] = last);
        assert_eq!(older, A_5.or_3(key_length, 10), "nonce {last}");
        assert_eq!(powered_up_by(KEEPER, &unit, |c| c.nonce[11] = last), 13, "nonce {last}");
    }
    // Nonces of another page are not looked at, and new ones never were.
    for last in [newest - 4, newest + 1] {
        let older = powered_up_by(A_5, &unit, |c| c.nonce[11] = last);
        assert_eq!(older, A_5.or_3(key_length, 13), "nonce {last}");
        assert_eq!(powered_up_by(KEEPER, &unit, |c| c.nonce[11] = last), 13, "nonce {last}");
    }
}

/// A driver that asks for another nonce as long as it is told 10, from a source that gives the same ones again: it would ask
/// for ever with A.5's firmware.
fn a_driver_with_a_stuck_source_hears_of_13(key_length: usize) {
    let unit = worn(key_length);
    let stuck = unit.nonce.clone();
    let asked = |firmware| (0..1000).find(|_| powered_up_by(firmware, &unit, |c| c.nonce = stuck.clone()) != 10);
    if A_5.takes_key_of(key_length) {
        assert_eq!(asked(A_5), None);
    }
    assert_eq!(asked(KEEPER), Some(0));
}

/// Every choice of what is wrong, in units of every firmware: a used nonce, a head that is not one, another key, one of the
/// other length, 8 restarts, and a half that the checkpoint fills in the older form. "Answers that change: where 10 held
/// together with 11, 12 or 13, the lowest of those three is given instead."
fn each_choice_of_what_is_wrong(key_length: usize) {
    for choice in 0..64 {
        let [used, bad_head, other_key, other_length, restarted, full] =
            [1, 2, 4, 8, 16, 32].map(|bit| choice & bit != 0);
        for (form, firmware) in [Form::Older, Form::Longer].into_iter().flat_map(|form| FIRMWARES.map(|f| (form, f))) {
            let checkpoint = Checkpoint {
                form,
                packet: if form == Form::Longer { 9 } else { 0 },
                open_part: vec![0xA1; 8],
                secret: vec![0xA2; 4],
                restarts: if restarted { 8 } else { 7 },
                previous_tag: [0x66; 16],
                nonce: [0x77; 12],
            };
            let key = vec![0x5C; key_length];
            let sealed = checkpoint.sealed(&key);
            let mut unit = lent(key_length, 3, 2, if full { 2 * sealed.len() } else { 256 });
            unit.key = key;
            unit.ring[..16].copy_from_slice(&record(&[0x77; 12], 0));
            unit.fram[..sealed.len()].copy_from_slice(&sealed);
            unit.nonce = if used { vec![0x77; 12] } else { vec![0x78; 12] };
            if bad_head {
                // The first word's kind, which is 0 in the longer head and 1 in the older one.
                unit.fram[0] = 0xC0;
            }
            if other_key {
                unit.key[0] ^= 1;
            }
            if other_length {
                unit.key = of_other_length(&unit.key);
            }
            // Document 01's firmware reads the older head only.
            let unread = bad_head || form == Form::Longer && firmware.form == Form::Older;
            let about_the_half = [(unread, 11), (other_key || other_length, 12), (restarted, 13)];
            let lowest = about_the_half.into_iter().find(|(holds, _)| *holds).map(|(_, stop)| stop);
            let outgrown = full && form == Form::Older && firmware.form == Form::Longer;
            let expected = match lowest {
                _ if !firmware.takes_key_of(unit.key.len()) => 3,
                Some(stop) if firmware.half_first || !used => stop,
                _ if used => 10,
                _ if outgrown => 4,
                _ => DONE,
            };
            let found = powered_up_by(firmware, &unit, |_| ());
            assert_eq!(found, expected, "{} firmware, {form:?}, choice {choice:#08b}", firmware.name);
        }
    }
}

/// 1 to 4, 6 and 7 still go before them all, and the job's own length, which the calls for C try last, behind them.
fn what_stands_around_them(key_length: usize) {
    let unit = worn(key_length);
    let stuck = unit.nonce.clone();
    for firmware in [A_2, A_5, KEEPER] {
        let tried = |change: &dyn Fn(&mut Lent)| {
            powered_up_by(firmware, &unit, |c| {
                c.nonce = stuck.clone();
                change(c);
            })
        };
        let or_3 = |answer| firmware.or_3(key_length, answer);
        let last = or_3(if firmware.half_first { 13 } else { 10 });
        assert_eq!(tried(&|_| ()), last);
        assert_eq!(tried(&|c| c.pages = 4), 1);
        assert_eq!(tried(&|c| c.fram.truncate(84)), 2);
        assert_eq!(tried(&|c| c.key.resize(24, 0)), 3);
        assert_eq!(tried(&|c| c.nonce.truncate(11)), 3);
        assert_eq!(tried(&|c| c.staging.truncate(63)), or_3(4));
        assert_eq!(tried(&|c| c.state = Rc::new(vec![0; firmware.part_limit - 1])), or_3(4));
        assert_eq!(tried(&|c| c.ring.fill(0xFF)), or_3(6));
        assert_eq!(tried(&|c| c.ring[64] = 0), or_3(7));
        assert_eq!(tried(&|c| c.job.truncate(63)), last);
    }
}

/// "Save keeps its order." It does not look at the half, so a used nonce is 10 whatever the half holds.
fn a_save_keeps_its_order(key_length: usize) {
    let unit = worn(key_length);
    assert_eq!(tried(Operation::Save, &unit, |_| ()), 10);
    assert_eq!(tried(Operation::Save, &unit, |c| c.fram.fill(0xC0)), 10);
    assert_eq!(tried(Operation::Save, &unit, |c| c.session[0] ^= 1), 8);
    assert_eq!(tried(Operation::Save, &unit, |c| c.nonce[11] += 1), DONE);
}
