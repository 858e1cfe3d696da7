//! Looks for the Rust text in the folder RPHONETIC_SRC, or in shared/docs/src/src beside the repository, and names its files as
//! modules where they stand. Where there is no such text the crate is built without it.
use std::env;
use std::fs;
use std::path::{Path, PathBuf};

/// The line of the main loop that moves on to the next visit; a call that counts the visit goes before it.
const MOVES_ON: &str = "char_index = iterator.nth(skip);";

/// The first test of condition_ch1, which compares four bytes with three-letter texts and never holds, and as edition 2 reads it.
const NEVER_HOLDS: &str = r#"(Self::contains(value, 0, 4, vec!["VAN", "VON"])"#;
const AS_ELSEWHERE: &str = r#"(Self::contains(value, 0, 4, vec!["VAN ", "VON "])"#;

fn main() {
    println!("cargo:rustc-check-cfg=cfg(rphonetic)");
    println!("cargo:rerun-if-env-changed=RPHONETIC_SRC");
    let out = folder("OUT_DIR");
    let text = env::var_os("RPHONETIC_SRC")
        .map(PathBuf::from)
        .unwrap_or_else(|| folder("CARGO_MANIFEST_DIR").join("../../../shared/docs/src/src"));

    let encoder = text.join("double_metaphone.rs");
    let helper = text.join("helper.rs");
    for file in [&encoder, &helper] {
        println!("cargo:rerun-if-changed={}", file.display());
    }
    let modules = match (fs::canonicalize(&encoder), fs::canonicalize(&helper)) {
        (Ok(encoder), Ok(helper)) => {
            println!("cargo:rustc-cfg=rphonetic");
            let text = fs::read_to_string(&encoder).expect("it was found");
            let counted = with_count(&text);
            let edition2 = replaced(&counted, NEVER_HOLDS, AS_ELSEWHERE);
            let [counted, edition2] =
                [("counted.rs", counted), ("edition2.rs", edition2)].map(|(name, text)| kept(&out, name, &text));
            [("double_metaphone", encoder), ("helper", helper), ("counted", counted), ("edition2", edition2)]
                .map(|(name, file)| module(name, &file))
                .concat()
        }
        _ => String::new(),
    };
    fs::write(out.join("modules.rs"), modules).expect("OUT_DIR can be written");
}

fn folder(variable: &str) -> PathBuf {
    PathBuf::from(env::var_os(variable).expect("cargo sets it"))
}

fn module(name: &str, file: &Path) -> String {
    // The text is taken as it is, with whatever a compiler may say of it.
    format!("#[allow(warnings)]\n#[path = {file:?}]\nmod {name};\n")
}

/// Writes a copy to the folder and tells where it is.
fn kept(folder: &Path, name: &str, text: &str) -> PathBuf {
    let file = folder.join(name);
    fs::write(&file, text).expect("OUT_DIR can be written");
    file
}

/// A copy whose main loop counts its visits, since the Rust has no count to compare with.
fn with_count(text: &str) -> String {
    replaced(text, MOVES_ON, &format!("crate::text::count_visit(); {MOVES_ON}"))
}

/// The text with one place changed, which must be there and be the only one.
fn replaced(text: &str, old: &str, new: &str) -> String {
    assert_eq!(text.matches(old).count(), 1, "the Rust text is not as expected: {old}");
    text.replace(old, new)
}
