//! What the typed calls add to the plain ones: stops as errors, the open part as a slice, jobs and sessions kept as bytes.

use godwitshelf::*;

const SIZES: Sizes = Sizes { pages: 3, slots: 2 };

for_each_key_length!(a_units_life, sealing_alone);

struct Memories {
    key: Vec<u8>,
    ring: [u8; 96],
    fram: [u8; 128],
    staging: [u8; 64],
}

impl Memories {
    fn first_save(&mut self, nonce: [u8; 12]) -> Result<Job, Stop> {
        let Memories { key, ring, fram, staging } = self;
        let first = Follows::StartingTag(&[4; 16]);
        save(SIZES, ring, fram, key, &nonce, first, 20, b"volume 3", b"t=10", staging)
    }

    fn save(&mut self, nonce: [u8; 12], session: &Session, packet: u32) -> Result<Job, Stop> {
        let Memories { key, ring, fram, staging } = self;
        save(SIZES, ring, fram, key, &nonce, Follows::Session(session), packet, b"volume 4", b"t=11", staging)
    }

    /// Advances to the end, keeping the job as bytes between the stores; the answer and how many stores it took.
    fn finish(&mut self, mut job: Job) -> (Progress, usize) {
        for stores in 1.. {
            job = Job::from_bytes(*job.as_bytes());
            let progress = advance(SIZES, &mut self.ring, &mut self.fram, &self.staging, &mut job).unwrap();
            if progress != Progress::GoingOn {
                let again = advance(SIZES, &mut self.ring, &mut self.fram, &self.staging, &mut job);
                assert_eq!(again, Err(Stop::BadJob));
                return (progress, stores);
            }
        }
        unreachable!()
    }
}

/// M13: open 8, secret 4 bytes. "M13 becomes 60 bytes and 16 stores, 17 with an erase."
fn a_units_life(key_length: usize) {
    let key = vec![3; key_length];
    let mut unit = Memories { key: key.clone(), ring: [0xFF; 96], fram: [0; 128], staging: [0; 64] };
    assert_eq!(look(SIZES, &unit.ring, &unit.fram, &key), Err(Stop::RingBlank));

    let job = unit.first_save([1; 12]).unwrap();
    assert_eq!(job.as_bytes()[16..20], 60u32.to_be_bytes());
    let (Progress::Saved(session), 16) = unit.finish(job) else { panic!() };
    assert_eq!(unit.first_save([2; 12]), Err(Stop::RingInUse));
    assert_eq!(unit.save([1; 12], &session, 21), Err(Stop::NonceUsed));
    assert_eq!(unit.save([2; 12], &session, 1 << 30), Err(Stop::PacketTooLarge));

    let session = Session::from_bytes(*session.as_bytes());
    let job = unit.save([2; 12], &session, 21).unwrap();
    let (Progress::Saved(_), 16) = unit.finish(job) else { panic!() };
    assert_eq!(unit.save([3; 12], &session, 22), Err(Stop::StaleSession));

    let mut state = [0; calls::STATE];
    let up = power_up(SIZES, &unit.ring, &unit.fram, &key, &[3; 12], &mut unit.staging, &mut state).unwrap();
    assert_eq!(&state[..up.secret_len], b"t=11");
    let (Progress::Restored(session), 17) = unit.finish(up.job) else { panic!() };

    // The third checkpoint stands in half A, so its open part at byte 32 of the image.
    let seen = look(SIZES, &unit.ring, &unit.fram, &key).unwrap();
    assert_eq!((seen.restarts, seen.open_part), (1, &b"volume 4"[..]));
    assert!(std::ptr::eq(seen.open_part, &unit.fram[32..40]));
    // Another key, or as many bytes of the same as a key of the other length has.
    let other_length = 48 - key_length;
    for other in [vec![4; key_length], vec![3; other_length]] {
        assert_eq!(look(SIZES, &unit.ring, &unit.fram, &other), Err(Stop::TagDiffers));
    }
    for wrong in [0, 15, 17, 24, 31, 33] {
        assert_eq!(look(SIZES, &unit.ring, &unit.fram, &vec![3; wrong]), Err(Stop::KeyNonceTagSize));
    }

    // No newer packet was heard: the restart is not forgotten.
    let job = unit.save([4; 12], &session, 21).unwrap();
    let (Progress::Saved(session), 16) = unit.finish(job) else { panic!() };
    assert_eq!(look(SIZES, &unit.ring, &unit.fram, &key).map(|seen| seen.restarts), Ok(1));
    let job = unit.save([5; 12], &session, 22).unwrap();
    let (Progress::Saved(_), 17) = unit.finish(job) else { panic!() };
    assert_eq!(look(SIZES, &unit.ring, &unit.fram, &key).map(|seen| seen.restarts), Ok(0));
}

fn sealing_alone(key_length: usize) {
    let key = vec![3; key_length];
    let mut out = [0; 10];
    let tag = seal(&key, &[1; 12], b"beside", b"text", &mut out).unwrap();
    let mut back = [9; 10];
    assert_eq!(open(&key, &[1; 12], b"beside", &out[..4], &tag, &mut back), Ok(()));
    assert_eq!(&back, b"text\x09\x09\x09\x09\x09\x09");
    assert_eq!(open(&key, &[2; 12], b"beside", &out[..4], &tag, &mut back), Err(Stop::TagDiffers));
    assert_eq!(seal(&[3; 24], &[1; 12], b"", b"", &mut out), Err(Stop::KeyNonceTagSize));
    assert_eq!(seal(&key, &[1; 11], b"", b"", &mut out), Err(Stop::KeyNonceTagSize));
    assert_eq!(seal(&key, &[1; 12], b"", &[0; 11], &mut out), Err(Stop::BufferSize));
    wipe(&mut back);
    assert_eq!(back, [0; 10]);
}
