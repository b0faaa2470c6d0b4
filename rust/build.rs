//! Links the archive of the crate `exported`. The variable SOUKLAVANH_ARCHIVE names it; `tools/archive`
//! makes one for this machine.

use std::path::{Path, PathBuf};

const VARIABLE: &str = "SOUKLAVANH_ARCHIVE";

fn main() {
    println!("cargo::rerun-if-env-changed={VARIABLE}");
    match archive() {
        Ok(path) => link(&path),
        Err(message) => println!("cargo::error={message}"),
    }
}

fn archive() -> Result<PathBuf, String> {
    let named = std::env::var_os(VARIABLE).ok_or(format!(
        "{VARIABLE} is not set; it names the archive that `tools/archive` makes"
    ))?;
    let path = PathBuf::from(named);
    // A relative path starts at the package's folder.
    match path.canonicalize() {
        Ok(whole) if whole.is_file() => Ok(whole),
        _ => Err(format!("{VARIABLE}: there is no file {}", path.display())),
    }
}

/// `path` is absolute and names a file.
fn link(path: &Path) {
    let folder = path.parent().expect("a file stands in a folder");
    let name = path.file_name().expect("a file has a name");
    println!("cargo::rerun-if-changed={}", path.display());
    println!("cargo::rustc-link-search=native={}", folder.display());
    println!(
        "cargo::rustc-link-lib=static:+verbatim={}",
        name.to_string_lossy()
    );
}
