use super::case::{Call, Case};
use super::library::{Record, UNTOLD};
use super::work::{both, Work, LIBRARIES};
use std::mem;

/// Times of different answers could not be compared. Books of one format have the same bytes, and those of different ones the same
/// records; what a call tells is the same, but for places.
pub fn check(case: &Case, work: &mut Work) -> Result<(), String> {
    let differ = |what: String| format!("answers differ on {}: {what}", case.cells().join(", "));
    if case.formats[0] == case.formats[1] && !work.alike {
        return Err(differ("the bytes of the books".to_string()));
    }
    for call in case.calls() {
        passes(work, *call).map_err(differ)?;
    }
    for book in 0..work.lists.len() {
        read(case, work, book).and_then(|()| records(work, book)).map_err(differ)?;
    }
    Ok(())
}

/// A pass of each library does what it is timed for. The pairs of both are the same, and as many as were counted.
fn passes(work: &mut Work, call: Call) -> Result<(), String> {
    let mut pairs = [Vec::new(), Vec::new()];
    for which in both() {
        let told = work.pass(call, which) as usize;
        let book = &work.books[which][0];
        let right = match call {
            Call::Append => work.room.get(..told) == Some(book),
            Call::Read => told == work.lists[0].len(),
            Call::Walk => told == book.len(),
            Call::Count | Call::Join => 2 * told == work.pairs.len(),
        };
        if !right {
            return Err(format!("{}, a whole pass of the {} one tells {told}", call.name(), ["old", "new"][which]));
        }
        if call == Call::Join {
            pairs[which] = mem::replace(&mut work.pairs, vec![1; 2 * told]);
        }
    }
    if pairs[0] == pairs[1] {
        Ok(())
    } else {
        Err("the pairs".to_string())
    }
}

/// All but the format is told alike, and all records are live.
fn read(case: &Case, work: &Work, book: usize) -> Result<(), String> {
    let told = [0, 1].map(|which| LIBRARIES[which].read(&work.books[which][book]));
    let records = work.lists[book].len() as u64;
    let expected = |which: usize| {
        let [number, format, _, _, count, _, live] = told[which];
        [number, format, count] == [0, case.formats[which].into(), records] && [records, UNTOLD].contains(&live)
    };
    if expected(0) && expected(1) && told[0][2..6] == told[1][2..6] {
        Ok(())
    } else {
        Err(format!("read\n  old: {:?}\n  new: {:?}", told[0], told[1]))
    }
}

/// How far a library is in its own book.
struct Walk<'a> {
    which: usize,
    book: &'a [u8],
    format: u32,
    edition: u32,
    place: u64,
    floor: u64,
}

impl<'a> Walk<'a> {
    fn new(work: &'a Work, which: usize, book: usize) -> Self {
        let book = &work.books[which][book][..];
        let [_, format, edition, _, place, floor] = LIBRARIES[which].open(book);
        Walk { which, book, format: format as u32, edition: edition as u32, place, floor }
    }

    fn next(&mut self) -> Record {
        let header = [self.format, self.edition, 0];
        let record = LIBRARIES[self.which].next(self.book, header, self.place, self.floor as u32);
        [.., self.place, self.floor, _] = record;
        record
    }

    /// Number, whether it was found, station, texts, floor, and that it is live.
    fn told(&self, record: Record) -> (u64, u64, u64, [&'a [u8]; 3], u64, bool) {
        let [number, found, station, texts @ .., _, floor, kind] = record;
        let text = |which: usize| &self.book[texts[2 * which] as usize..][..texts[2 * which + 1] as usize];
        (number, found, station, [text(0), text(1), text(2)], floor, [1, UNTOLD].contains(&kind))
    }
}

/// Both books have the list's stations and names, and the same codes.
fn records(work: &Work, book: usize) -> Result<(), String> {
    let [mut old, mut new] = [0, 1].map(|which| Walk::new(work, which, book));
    for (station, name) in &work.lists[book] {
        let (one, other) = (old.next(), new.next());
        let (one, other) = (old.told(one), new.told(other));
        let (number, found, told, [stored, ..], _, live) = one;
        if one != other || (number, found, told, stored, live) != (0, 1, *station, name.as_bytes(), true) {
            return Err(format!("next, station {station}\n  old: {one:?}\n  new: {other:?}"));
        }
    }
    for mut walk in [old, new] {
        let end = walk.place as usize == walk.book.len();
        if !end || walk.next()[..2] != [0, 0] {
            return Err("next, at the end".to_string());
        }
    }
    Ok(())
}
