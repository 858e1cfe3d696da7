use crate::{Fault, Header, BAD_NUMBER, NAME_LIMIT, NEW_EDITION, NEW_FORMAT, NOT_ASCII, NOT_RISING, NUMBER_END, TOO_LONG};

/// Writes a number in groups of seven bits, low group first, the high bit where more follow.
pub fn push_number(book: &mut Vec<u8>, mut number: u64) {
    while number >= 128 {
        book.push(number as u8 | 128);
        number /= 128;
    }
    book.push(number as u8);
}

fn push_text(book: &mut Vec<u8>, text: &[u8]) {
    push_number(book, text.len() as u64);
    book.extend(text);
}

/// Writes a live record of a book with this header; `codes` gives the primary and the alternate code of a name in it.
pub(crate) fn push_record<C: AsRef<[u8]>>(
    book: &mut Vec<u8>,
    header: Header,
    station: u64,
    name: &[u8],
    codes: impl FnOnce(&[u8], Header) -> (C, C),
) {
    let (primary, alternate) = codes(name, header);
    if header.format > 1 {
        push_number(book, 1);
    }
    push_number(book, station);
    for text in [name, primary.as_ref(), alternate.as_ref()] {
        push_text(book, text);
    }
}

/// What is asked of a new record by itself, in order.
pub(crate) fn judge(station: u64, name: &[u8]) -> Result<(), Fault> {
    if name.len() > NAME_LIMIT {
        return Err(TOO_LONG);
    }
    if !name.is_ascii() {
        return Err(NOT_ASCII);
    }
    if station >= NUMBER_END {
        return Err(BAD_NUMBER);
    }
    Ok(())
}

/// A book that is being written.
#[derive(Clone, Debug)]
pub struct Writer {
    book: Vec<u8>,
    header: Header,
    before: Option<u32>,
}

impl Writer {
    /// A new book without records.
    pub fn new(limit: Option<u64>) -> Result<Self, Fault> {
        Writer::of(NEW_FORMAT, NEW_EDITION, limit)
    }

    /// A book without records of this format and edition, as stored books may carry older ones.
    pub fn of(format: u32, edition: u32, limit: Option<u64>) -> Result<Self, Fault> {
        Header { format, edition, cut: 0 }.known()?;
        let cut = limit.map_or(Some(0), |limit| limit.checked_add(1));
        let cut = cut.filter(|cut| *cut < NUMBER_END).ok_or(BAD_NUMBER)? as u32;
        let mut book = Vec::new();
        for number in [format, edition, cut] {
            push_number(&mut book, number.into());
        }
        Ok(Writer { book, header: Header { format, edition, cut }, before: None })
    }

    /// Writes one more record; `codes` gives the primary and the alternate code of a name in a book with this header.
    pub fn push<C: AsRef<[u8]>>(
        &mut self,
        station: u64,
        name: &[u8],
        codes: impl FnOnce(&[u8], Header) -> (C, C),
    ) -> Result<(), Fault> {
        judge(station, name)?;
        if self.before.is_some_and(|before| station <= u64::from(before)) {
            return Err(NOT_RISING);
        }
        push_record(&mut self.book, self.header, station, name, codes);
        self.before = Some(station as u32);
        Ok(())
    }

    /// The book so far.
    pub fn as_bytes(&self) -> &[u8] {
        &self.book
    }

    /// The book.
    pub fn into_bytes(self) -> Vec<u8> {
        self.book
    }
}
