use simmerquilt::{Answer, Told, Verdict};

/// What is held against the Rust: the proved library or, in the tests, the library with a fault in some of its answers.
pub trait Port: Sync {
    fn encode(&self, word: &[u8], primary: &mut [u8], alternate: &mut [u8], limit: Option<u64>) -> Answer {
        simmerquilt::encode_into(word, primary, alternate, limit)
    }

    fn encode_in(&self, edition: u64, word: &[u8], primary: &mut [u8], alternate: &mut [u8], limit: Option<u64>) -> Answer {
        simmerquilt::encode_into_in(edition, word, primary, alternate, limit)
    }

    fn explain(&self, edition: u64, word: &[u8], limit: Option<u64>, rows: &mut [u32]) -> Told {
        simmerquilt::explain_into(edition, word, limit, rows)
    }

    fn equal(&self, first: &[u8], second: &[u8], limit: Option<u64>, alternate: bool) -> Verdict {
        simmerquilt::ask_equal(first, second, limit, alternate)
    }
}

/// The proved library.
pub struct Library;

impl Port for Library {}
