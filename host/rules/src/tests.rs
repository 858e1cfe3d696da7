//! The definition as it is in the repository, and copies of it that are changed in one spot.
mod files;
mod lines;
mod reading;

use crate::{files as files_of, Fault};
use std::path::{Path, PathBuf};

fn root() -> PathBuf {
    Path::new(env!("CARGO_MANIFEST_DIR")).join("../..")
}

/// The repository's files, but that in one of them the one `old` is `new`. The file is named in crates/rules/specs, or by its path.
fn changed<'a>(file: &'a str, old: &'a str, new: &'a str) -> impl Fn(&str) -> Result<String, Fault> + 'a {
    let changes = move |path: &str| path == file || path == format!("crates/rules/specs/{file}");
    move |path| {
        let text = files_of(&root())(path)?;
        if !changes(path) {
            return Ok(text);
        }
        assert_eq!(text.matches(old).count(), 1, "{old} in {path}");
        Ok(text.replace(old, new))
    }
}
