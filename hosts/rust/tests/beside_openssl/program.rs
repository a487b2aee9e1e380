//! Where the programs are: the variable `KEEPER_PROGRAMS` names their folder; without it they are in the repository's
//! `target/bin`.

use std::env;
use std::path::{Path, PathBuf};

pub fn program(name: &str) -> PathBuf {
    let folder = env::var_os("KEEPER_PROGRAMS").map(PathBuf::from);
    let folder = folder.unwrap_or_else(|| Path::new(env!("CARGO_MANIFEST_DIR")).join("../../target/bin"));
    folder.join(name)
}
