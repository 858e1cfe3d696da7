use crate::library::{Answer, Library, NEW, OLD, ROOM};
use crate::{limit_text, Row};

/// A byte that no code has, so that a byte which was not to be written is seen to be.
const UNWRITTEN: u8 = b'.';

/// All that a call leaves: its answer and both buffers, also behind the codes.
#[derive(PartialEq)]
struct Left {
    answer: Answer,
    primary: [u8; ROOM],
    alternate: [u8; ROOM],
}

impl Left {
    fn by(library: Library, word: &str, limit: Option<usize>) -> Left {
        let (mut primary, mut alternate) = ([UNWRITTEN; ROOM], [UNWRITTEN; ROOM]);
        let answer = library.encode(word.as_bytes(), &mut primary, &mut alternate, limit);
        Left { answer, primary, alternate }
    }

    fn told(&self) -> String {
        let [number, place, primary, alternate, visits] = self.answer;
        format!(
            "number {number}, place {place}, {primary} and {alternate} bytes, {visits} visits, {} and {}",
            written(&self.primary),
            written(&self.alternate),
        )
    }
}

/// A buffer up to the last byte that was written.
fn written(buffer: &[u8]) -> String {
    let end = buffer.iter().rposition(|byte| *byte != UNWRITTEN).map_or(0, |last| last + 1);
    format!("{:?}", String::from_utf8_lossy(&buffer[..end]))
}

/// Times of different answers could not be compared.
pub fn check(rows: &[Row]) -> Result<String, String> {
    for row in rows {
        for word in row.words {
            let [old, new] = [OLD, NEW].map(|library| Left::by(library, word, row.limit));
            if old != new {
                let limit = limit_text(row.limit);
                return Err(format!(
                    "answers differ on {word:?}, limit {limit}\n  old: {}\n  new: {}",
                    old.told(),
                    new.told()
                ));
            }
        }
    }
    Ok(String::new())
}
