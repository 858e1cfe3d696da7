use crate::{Fault, BAD_NUMBER, CUT_SHORT, EDITIONS, FORMATS, NAME_LIMIT, NOT_ASCII, NOT_RISING, TOO_LONG, UNKNOWN};

/// What stands in front of the records.
#[derive(Clone, Copy, Debug, PartialEq, Eq)]
pub struct Header {
    pub format: u32,
    pub edition: u32,
    pub cut: u32,
}

impl Header {
    /// The limit that made the codes, or none.
    pub fn limit(&self) -> Option<u64> {
        u64::from(self.cut).checked_sub(1)
    }

    /// A header that is told, and not read, may be of any format and edition.
    pub fn known(&self) -> Result<(), Fault> {
        if FORMATS.contains(&self.format) && EDITIONS.contains(&self.edition) {
            Ok(())
        } else {
            Err(UNKNOWN)
        }
    }
}

/// One station, as it lies in the book.
#[derive(Clone, Copy, Debug, PartialEq, Eq)]
pub struct Record<'a> {
    /// Whether it is not closed; in format 1 all are live.
    pub live: bool,
    pub station: u32,
    pub name: &'a [u8],
    pub primary: &'a [u8],
    pub alternate: &'a [u8],
}

/// Goes through a book from byte to byte and stops at the first fault.
pub struct Reader<'a> {
    book: &'a [u8],
    format: u32,
    place: usize,
    before: Option<u32>,
}

impl<'a> Reader<'a> {
    /// Reads the header; the records are still to come.
    pub fn open(book: &'a [u8]) -> Result<(Header, Self), Fault> {
        let mut reader = Reader { book, format: 0, place: 0, before: None };
        let (format, edition) = (reader.known(&FORMATS)?, reader.known(&EDITIONS)?);
        let header = Header { format, edition, cut: reader.number()? };
        reader.format = format;
        Ok((header, reader))
    }

    /// Begins at a place of a book whose header is told, where the record before has the given station.
    pub fn at(book: &'a [u8], header: Header, place: usize, before: Option<u32>) -> Result<Self, Fault> {
        header.known()?;
        Ok(Reader { book, format: header.format, place, before })
    }

    /// Where the next record begins.
    pub fn place(&self) -> usize {
        self.place
    }

    /// The station of the record before, if there is one.
    pub fn before(&self) -> Option<u32> {
        self.before
    }

    fn byte(&mut self) -> Result<u8, Fault> {
        let byte = *self.book.get(self.place).ok_or(CUT_SHORT)?;
        self.place += 1;
        Ok(byte)
    }

    fn number(&mut self) -> Result<u32, Fault> {
        let mut value = 0;
        for group in 0..4 {
            let byte = self.byte()?;
            value |= u32::from(byte & 127) << (7 * group);
            if byte < 128 {
                // A last group of 0 behind others could have been left out.
                let shortest = byte != 0 || group == 0;
                return if shortest { Ok(value) } else { Err(BAD_NUMBER) };
            }
        }
        Err(BAD_NUMBER)
    }

    /// Format, edition and kind: a number that is known.
    fn known(&mut self, known: &[u32]) -> Result<u32, Fault> {
        let number = self.number()?;
        if known.contains(&number) {
            Ok(number)
        } else {
            Err(UNKNOWN)
        }
    }

    fn text(&mut self, length: u32) -> Result<&'a [u8], Fault> {
        let rest = &self.book[self.place..];
        let text = rest.get(..length as usize).ok_or(CUT_SHORT)?;
        self.place += text.len();
        Ok(text)
    }

    fn live(&mut self) -> Result<bool, Fault> {
        Ok(self.format == 1 || self.known(&[0, 1])? == 1)
    }

    fn station(&mut self) -> Result<u32, Fault> {
        let station = self.number()?;
        match self.before {
            Some(before) if station <= before => Err(NOT_RISING),
            _ => Ok(station),
        }
    }

    /// A high byte is met before the book's end, so it is looked for also where the name is cut short.
    fn name(&mut self) -> Result<&'a [u8], Fault> {
        let length = self.number()?;
        if length as usize > NAME_LIMIT {
            return Err(TOO_LONG);
        }
        for byte in self.book[self.place..].iter().take(length as usize) {
            if *byte >= 128 {
                return Err(NOT_ASCII);
            }
        }
        self.text(length)
    }

    fn code(&mut self) -> Result<&'a [u8], Fault> {
        let length = self.number()?;
        self.text(length)
    }

    fn record(&mut self) -> Result<Record<'a>, Fault> {
        let (live, station) = (self.live()?, self.station()?);
        let record = Record { live, station, name: self.name()?, primary: self.code()?, alternate: self.code()? };
        self.before = Some(station);
        Ok(record)
    }
}

/// The records up to the end or to the first fault, which comes last.
impl<'a> Iterator for Reader<'a> {
    type Item = Result<Record<'a>, Fault>;

    fn next(&mut self) -> Option<Self::Item> {
        if self.place >= self.book.len() {
            return None;
        }
        let record = self.record();
        if record.is_err() {
            self.place = self.book.len();
        }
        Some(record)
    }
}

/// The whole book, or the number of the fault that is met first.
pub fn read(book: &[u8]) -> Result<(Header, Vec<Record<'_>>), Fault> {
    let (header, records) = Reader::open(book)?;
    Ok((header, records.collect::<Result<_, _>>()?))
}
