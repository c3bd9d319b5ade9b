//! Images, snapshots and stores to try: those of the oracle's generators, edges and recorded histories, and the stores that the proved calls make
//! of them.

#![allow(dead_code)]

use std::path::PathBuf;
use std::process::{Command, Output};

use oracle::generate;
use oracle::house::Call;
use oracle::script;

pub fn repository() -> PathBuf {
    PathBuf::from(env!("CARGO_MANIFEST_DIR")).join("..")
}

/// The calls of a generated history, the three generators in turn.
pub fn history(seed: u64) -> Vec<Call> {
    match seed % 3 {
        0 => generate::sharing::history(seed),
        1 => generate::set_back::history(seed),
        _ => generate::history(seed),
    }
}

/// The calls of the edges and the recorded histories.
pub fn recorded() -> Vec<Call> {
    let mut calls = Vec::new();
    let folder = repository().join("oracle/edges");
    let mut files: Vec<PathBuf> = std::fs::read_dir(folder).expect("the edges").map(|entry| entry.expect("an entry").path()).collect();
    files.push(repository().join("vectors/histories.txt"));
    files.sort();
    for file in files {
        let text = std::fs::read_to_string(&file).expect("a script");
        calls.extend(text.lines().filter_map(|line| script::parse(line).ok().flatten()));
    }
    calls
}

pub fn new_store() -> Vec<u32> {
    let mut store = vec![0; cerambiu::STORE_WORDS];
    cerambiu::new(&mut store, 0).expect("a new store");
    store
}

/// The number of the proved load.
pub fn load_number(image: &[u32]) -> u32 {
    cerambiu::load(&mut new_store(), 0, image).map_or_else(|refused| refused.0, |()| 0)
}

/// The number of a proved tick of a store without a set: that of its snapshot.
pub fn snapshot_number(snapshot: &[u32]) -> u32 {
    cerambiu::tick(&mut new_store(), snapshot, &mut [], &mut []).map_or_else(|refused| refused.0, |_| 0)
}

/// The number of the proved counters call: that of the store.
pub fn store_number(store: &[u32]) -> u32 {
    cerambiu::counters(store).map_or_else(|refused| refused.0, |_| 0)
}

// THE PROGRAM --------------------------------------------------------------------------------------------------------------------------------

pub const EXAMPLES: [&str; 3] = ["layer-house.rules", "broiler-house.rules", "inspection-light.rules"];

pub fn example(name: &str) -> String {
    repository().join("examples").join(name).to_string_lossy().into_owned()
}

/// An empty folder of a test.
pub fn folder(name: &str) -> PathBuf {
    let folder = PathBuf::from(env!("CARGO_TARGET_TMPDIR")).join(name);
    let _ = std::fs::remove_dir_all(&folder);
    std::fs::create_dir_all(&folder).expect("a folder");
    folder
}

pub fn barn(args: &[&str]) -> Output {
    Command::new(env!("CARGO_BIN_EXE_barn")).args(args).output().expect("barn runs")
}

/// Exit status, standard output and standard error.
pub fn texts(output: &Output) -> (i32, String, String) {
    let text = |bytes: &[u8]| String::from_utf8_lossy(bytes).into_owned();
    (output.status.code().unwrap_or(-1), text(&output.stdout), text(&output.stderr))
}
