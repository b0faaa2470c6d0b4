//! The good files of judge/vectors/, played through the archive: the lines have to be those that are kept next to them.

#[allow(dead_code)] // The program of judge/against/run uses the rest.
mod bench;
#[allow(dead_code)] // It also writes bench files, which nobody needs here.
#[path = "../../judge/oracle/src/benchfile.rs"]
mod benchfile;

use bench::play::{Tally, play};
use std::fs;
use std::path::{Path, PathBuf};

fn vectors() -> Vec<PathBuf> {
    let folder = Path::new(env!("CARGO_MANIFEST_DIR")).join("../judge/vectors");
    let mut files: Vec<PathBuf> = fs::read_dir(folder)
        .expect("the repository has judge/vectors/")
        .map(|entry| entry.expect("a readable folder").path())
        .filter(|path| path.extension().is_some_and(|extension| extension == "bot"))
        .collect();
    files.sort();
    files
}

#[test]
fn vectors_give_the_lines_beside_them() {
    let mut tally = Tally::default();
    for path in vectors() {
        let due = fs::read_to_string(path.with_extension("out")).expect("lines beside the file");
        let file = fs::read(&path).expect("a readable file");
        let Ok(events) = benchfile::parse(&file) else {
            assert_eq!(due, "14\n", "{}", path.display());
            continue;
        };
        match play(&events, &mut tally, &mut |_| Ok(())) {
            Ok(text) => assert_eq!(text, due, "{}", path.display()),
            Err(what) => panic!("{}, {what}", path.display()),
        }
    }
    assert!(tally.files > 100 && tally.probes > 1_000);
    println!(
        "{} files, {} events, {} calls refused as they have to be",
        tally.files, tally.events, tally.probes
    );
}
