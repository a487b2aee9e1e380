//! Images as Intel HEX, beside SRecord: every answer and every lent byte is compared with what request A.1 says, worked
//! out here anew; SRecord's `srec_cat` reads what the keeper exports, and the keeper imports what `srec_cat` writes.

mod buffers;
mod compare;
mod damaged;
mod intel_hex;
mod lines;
#[path = "../beside_openssl/program.rs"]
mod program;
mod programs;
#[path = "../beside_openssl/random.rs"]
mod random;
mod round_trips;
mod srec_cat;
