//! A word as the rules see it, by document 01's "Preparing the word".

/// The starts whose first letter is silent.
const SILENT: [&[u8]; 5] = [b"GN", b"KN", b"PN", b"WR", b"PS"];

/// What sets the Slavo-Germanic mark. The last has a W, so the first sets it too; it stands here since document 01 names it.
const MARKS: [&[u8]; 4] = [b"W", b"K", b"CZ", b"WITZ"];

/// The trimmed word in capitals, with its mark.
pub struct Word {
    bytes: Vec<u8>,
    mark: bool,
}

impl Word {
    pub fn new(lent: &[u8]) -> Self {
        let bytes = trimmed(lent).to_ascii_uppercase();
        let mark = MARKS.iter().any(|text| bytes.windows(text.len()).any(|window| window == *text));
        Word { bytes, mark }
    }

    pub fn length(&self) -> usize {
        self.bytes.len()
    }

    pub fn mark(&self) -> bool {
        self.mark
    }

    /// Where the walk starts.
    pub fn start(&self) -> usize {
        usize::from(SILENT.iter().any(|text| self.bytes.starts_with(text)))
    }

    /// The bytes from a place on; none where the place is below 0 or they would reach past the end.
    pub fn window(&self, at: isize, width: usize) -> Option<&[u8]> {
        let at = usize::try_from(at).ok()?;
        self.bytes.get(at..at + width)
    }

    pub fn byte(&self, at: isize) -> Option<u8> {
        self.window(at, 1).map(|window| window[0])
    }

    /// Nothing there means no.
    pub fn vowel(&self, at: isize) -> bool {
        self.byte(at).is_some_and(is_vowel)
    }
}

/// The vowels, among which Y counts here.
pub fn is_vowel(byte: u8) -> bool {
    b"AEIOUY".contains(&byte)
}

fn trimmed(lent: &[u8]) -> &[u8] {
    let kept = |byte: &u8| !matches!(byte, 9..=13 | 32);
    match (lent.iter().position(kept), lent.iter().rposition(kept)) {
        (Some(first), Some(last)) => &lent[first..=last],
        _ => &[],
    }
}
