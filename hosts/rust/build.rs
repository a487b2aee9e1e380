//! Links the archive of the proved calls, `libkeeper_c.a`.
//!
//! It is made by `hosts/build keeper_c` at the repository's root, unless the one in `target/staticlib` is newer than
//! every file that it is made from. The variable `KEEPER_ARCHIVE` names another archive instead.

use std::collections::BTreeSet;
use std::path::{Path, PathBuf};
use std::process::{exit, Command};
use std::time::SystemTime;
use std::{env, fs};

fn main() {
    println!("cargo:rerun-if-changed=build.rs");
    println!("cargo:rerun-if-env-changed=KEEPER_ARCHIVE");
    let archive = match env::var_os("KEEPER_ARCHIVE") {
        Some(path) => PathBuf::from(path),
        None => made_here(),
    };
    println!("cargo:rerun-if-changed={}", archive.display());

    // The copy stays when target/ is removed.
    let folder = env::var("OUT_DIR").unwrap();
    if let Err(why) = fs::copy(&archive, Path::new(&folder).join("libkeeper_c.a")) {
        fail(&format!("{}: {why}", archive.display()));
    }
    println!("cargo:rustc-link-search=native={folder}");
    println!("cargo:rustc-link-lib=static=keeper_c");
}

/// The archive in the repository's `target`, made anew if a file that it depends on is newer.
fn made_here() -> PathBuf {
    let root = Path::new(&env::var("CARGO_MANIFEST_DIR").unwrap()).join("../..");
    let archive = root.join("target/staticlib/libkeeper_c.a");
    let list = root.join("crates.txt");
    println!("cargo:rerun-if-changed={}", list.display());
    let mut newest = changed(&list);
    for name in needed(&fs::read_to_string(&list).unwrap_or_default()) {
        // beside these a crate has the folder out/, which rt makes
        for part in ["src", "specs", "proofs"] {
            let folder = root.join("crates").join(name).join(part);
            println!("cargo:rerun-if-changed={}", folder.display());
            newest = newest.max(changed(&folder));
        }
    }
    if changed(&archive) <= newest {
        make(&root);
    }
    archive
}

fn make(root: &Path) {
    match Command::new(root.join("hosts/build")).arg("keeper_c").current_dir(root).output() {
        Err(why) => fail(&format!("hosts/build: {why}")),
        Ok(ran) if !ran.status.success() => fail(&format!(
            "hosts/build keeper_c failed\n{}{}",
            String::from_utf8_lossy(&ran.stdout),
            String::from_utf8_lossy(&ran.stderr)
        )),
        Ok(_) => (),
    }
}

/// `keeper_c` and every crate of the repository that it needs, by the lines `NAME: DEP DEP ..` of `crates.txt`, with `staticlib` behind the name of a static library.
fn needed(list: &str) -> BTreeSet<&str> {
    let lines: Vec<(&str, &str)> = list.lines().filter_map(|line| line.split('#').next()?.split_once(':')).collect();
    let mut names = BTreeSet::new();
    let mut more = vec!["keeper_c"];
    while let Some(name) = more.pop() {
        if let Some((_, needs)) = lines.iter().find(|(listed, _)| listed.split_whitespace().next() == Some(name)) {
            if names.insert(name) {
                more.extend(needs.split_whitespace());
            }
        }
    }
    names
}

/// When a file, or the newest file of a folder, was changed; a file that is not there counts as the oldest.
fn changed(path: &Path) -> SystemTime {
    if let Ok(entries) = fs::read_dir(path) {
        entries.flatten().map(|entry| changed(&entry.path())).max().unwrap_or(SystemTime::UNIX_EPOCH)
    } else {
        fs::metadata(path).and_then(|about| about.modified()).unwrap_or(SystemTime::UNIX_EPOCH)
    }
}

fn fail(why: &str) -> ! {
    eprintln!("{why}");
    exit(1)
}
