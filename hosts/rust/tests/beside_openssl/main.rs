//! The keeper beside OpenSSL: every answer and every lent byte is compared with what document 01 and document 02's A.2 and
//! A.5 to A.12 say, worked out here anew over OpenSSL's AES-128-GCM and AES-256-GCM; of A.4's and A.9's to A.12's programs,
//! what they print. Nothing in this folder uses the keeper to say what the keeper should do. The older firmwares, which a unit may
//! have had before, are worked out here likewise, from the documents up to them.

/// Makes two tests of each of these functions: with keys of 16 bytes, and of 32 (document 02, A.8).
macro_rules! for_each_key_length {
    ($($test:ident),+ $(,)?) => {
        mod keys_of_16_bytes {
            $(#[test] fn $test() { super::$test(16) })+
        }
        mod keys_of_32_bytes {
            $(#[test] fn $test() { super::$test(32) })+
        }
    };
}

mod book;
mod by_hand;
mod chain;
mod checkpoints;
mod compare;
mod cuts;
mod factory;
mod firmware;
mod histories;
mod history;
mod key_lengths;
mod larger_parts;
mod layout;
mod older_images;
mod one_save;
mod openssl;
mod operations;
mod packets;
mod program;
mod random;
mod ring_shapes;
mod running;
mod seal_open;
mod settings;
mod traces;
mod typed;
mod unit;
mod worn_units;
