use super::case::{Call, Case};
use super::library::{Header, Library, NEW, NIL, OLD};
use super::stations::List;
use crate::library;
use std::hint::black_box;

/// A library by its number.
pub const LIBRARIES: [Library; 3] = [OLD, NEW, NIL];

/// The books of a case, and the rooms that are lent there.
pub struct Work {
    pub lists: Vec<List>,
    /// Those that the old library has made, and those of the new one.
    pub books: [Vec<Vec<u8>>; 2],
    /// Of the first book of each.
    pub headers: [Header; 2],
    /// Whether the books of both have the same bytes.
    pub alike: bool,
    pub room: Vec<u8>,
    pub scratch: Vec<usize>,
    pub pairs: Vec<u32>,
}

/// The numbers of both libraries. That which lies first in the program is met first here too.
pub fn both() -> [usize; 2] {
    if library::OLD.lies_before(library::NEW) {
        [0, 1]
    } else {
        [1, 0]
    }
}

impl Work {
    /// Rooms do not begin with 0, so that their memory is at hand before anything is timed.
    pub fn new(case: &Case) -> Work {
        let lists = case.lists();
        let limits = case.setting.limits;
        let header = |which: usize, limit| header(LIBRARIES[which], case.formats[which], limit);
        let mut books = [Vec::new(), Vec::new()];
        for which in both() {
            let made = lists.iter().zip(limits).map(|(list, limit)| made(LIBRARIES[which], list, header(which, *limit)));
            books[which] = made.collect();
        }
        let mut work = Work {
            alike: books[0] == books[1],
            room: vec![1; books.iter().map(|books| books[0].len()).max().unwrap_or(0)],
            headers: [0, 1].map(|which| header(which, limits[0])),
            scratch: Vec::new(),
            pairs: Vec::new(),
            lists,
            books,
        };
        if let [first, second] = &work.lists[..] {
            let words = both().map(|which| LIBRARIES[which].scratch(first.len(), second.len()));
            work.scratch = vec![1; words[0].max(words[1])];
            let pairs = both().map(|which| work.pass(Call::Count, which));
            work.pairs = vec![1; 2 * pairs[0].max(pairs[1]) as usize];
        }
        work
    }

    /// Makes a call by a library, and tells the length that was written, the records that were read, where the walk ended, or the pairs.
    /// Libraries whose books are alike are given them at one place. The library is hidden from the compiler, which might else make
    /// code of its own for each.
    pub fn pass(&mut self, call: Call, which: usize) -> u64 {
        let library = black_box(LIBRARIES[which]);
        let own = if self.alike { 0 } else { which % 2 };
        let (books, header) = (&self.books[own], self.headers[own]);
        match call {
            Call::Append => append(library, &self.lists[0], header, &mut self.room),
            Call::Read => library.read(&books[0])[4],
            Call::Walk => walk(library, &books[0], header, self.lists[0].len()),
            Call::Count => library.count([&books[0], &books[1]], &mut self.scratch)[1],
            Call::Join => library.join([&books[0], &books[1]], &mut self.scratch, &mut self.pairs)[1],
        }
    }
}

/// That of a new book, but for the format.
fn header(library: Library, format: u32, limit: Option<u64>) -> Header {
    let mut room = [0; 6];
    library.start(&mut room, limit);
    let [_, _, edition, cut, ..] = library.open(&room);
    [format, edition as u32, cut as u32]
}

fn made(library: Library, list: &List, header: Header) -> Vec<u8> {
    // A kind and a station, and a name, whose codes are less than twice as long, each with its length.
    let most: usize = list.iter().map(|(_, name)| 1 + 4 + 3 * 2 + 5 * name.len()).sum();
    let mut book = vec![0; 6 + most];
    let length = append(library, list, header, &mut book);
    book.truncate(length as usize);
    book.shrink_to_fit();
    book
}

/// Writes a book from its start, and tells its length. The header of a new book has the library's own format, in its first byte; a book
/// of another one gets that.
#[inline(never)]
fn append(library: Library, list: &List, header: Header, room: &mut [u8]) -> u64 {
    let [_, mut length] = library.start(room, u64::from(header[2]).checked_sub(1));
    room[0] = header[0] as u8;
    let mut floor = 0;
    for (station, name) in list {
        [_, length, floor] = black_box(library.append(room, header, [length, floor], *station, name.as_bytes()));
    }
    length
}

/// Goes through as many records, and tells where it comes to.
#[inline(never)]
fn walk(library: Library, book: &[u8], header: Header, records: usize) -> u64 {
    let [.., mut place, mut floor] = library.open(book);
    for _ in 0..records {
        [.., place, floor, _] = black_box(library.next(book, header, place, floor as u32));
    }
    place
}
