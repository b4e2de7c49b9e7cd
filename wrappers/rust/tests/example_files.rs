//! The worked examples of one phaser and of traces, from the files of the checkout, through the Rust crate.
use paldwosk::{events, replay, Refused};
use std::fs;
use std::path::{Path, PathBuf};

fn examples(folder: &str) -> Vec<PathBuf> {
    let folder = Path::new(env!("CARGO_MANIFEST_DIR")).join("../../examples").join(folder);
    let mut found: Vec<_> = fs::read_dir(folder)
        .unwrap()
        .map(|entry| entry.unwrap().path())
        .filter(|path| path.extension().is_some_and(|it| it == "json"))
        .collect();
    found.sort();
    found
}

/// What must be answered for the example: the lines beside it, or the line of its refusal.
fn wanted(example: &Path) -> Result<String, Refused> {
    match fs::read_to_string(example.with_extension("err")) {
        Ok(line) => Err(Refused { line }),
        Err(_) => Ok(fs::read_to_string(example.with_extension("out")).unwrap()),
    }
}

#[test]
fn events_files_are_answered() {
    let all = examples("events");
    assert!(all.len() > 10);
    for example in all {
        assert_eq!(events(&fs::read(&example).unwrap()), wanted(&example), "{example:?}");
    }
}

#[test]
fn traces_are_replayed() {
    let all = examples("replays");
    assert!(all.len() > 5);
    for example in all {
        assert_eq!(replay(&fs::read(&example).unwrap()), wanted(&example), "{example:?}");
    }
}
