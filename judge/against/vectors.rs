//! The good files of a folder, with the lines kept next to them.

use crate::bench::Checked;
use crate::bench::play::Tally;
use crate::{benchfile, compare};
use std::path::{Path, PathBuf};

pub fn compare_all(folder: &str) -> Checked {
    let mut tally = Tally::default();
    for path in files(folder).map_err(|error| format!("{folder}: {error}"))? {
        compare_file(&path, &mut tally).map_err(|what| format!("{}, {what}", path.display()))?;
    }
    if tally.files == 0 {
        return Err(format!("{folder} has no good file"));
    }
    println!("{}", compare::summary(&tally));
    Ok(())
}

fn files(folder: &str) -> std::io::Result<Vec<PathBuf>> {
    let mut files = Vec::new();
    for entry in std::fs::read_dir(folder)? {
        let path = entry?.path();
        if path.extension().is_some_and(|extension| extension == "bot") {
            files.push(path);
        }
    }
    files.sort();
    Ok(files)
}

fn compare_file(path: &Path, tally: &mut Tally) -> Checked {
    let file = std::fs::read(path).map_err(|error| error.to_string())?;
    let due = std::fs::read_to_string(path.with_extension("out"))
        .map_err(|error| format!("its lines: {error}"))?;
    let text = match benchfile::parse(&file) {
        Ok(events) => compare::file(&events, tally)?,
        Err(_) => "14\n".to_string(),
    };
    if text == due {
        return Ok(());
    }
    Err(format!(
        "the lines kept beside it are others\n-- due\n{due}-- ours\n{text}"
    ))
}
