//! The calls for books. An archive that can close a station has records of two kinds: its `next` takes the format and the edition too,
//! and it tells last what an older one does not, the kind of a record and how many are live.

/// What stands last where a library does not tell it.
pub const UNTOLD: u64 = u64::MAX;

/// Number, format, edition, cut, place, floor.
pub type Opened = [u64; 6];
/// Number, format, edition, cut, records, floor, how many are live.
pub type Whole = [u64; 7];
/// Number, found, station, start and length of three texts, place, floor, kind.
pub type Record = [u64; 12];

/// Format, edition, cut.
pub type Header = [u32; 3];

type Open = unsafe extern "C" fn(*const u8, usize, *mut Opened);
type Read = unsafe extern "C" fn(*const u8, usize, *mut Whole);
type Start = unsafe extern "C" fn(*mut u8, usize, bool, u64, *mut [u64; 2]);
type Append = unsafe extern "C" fn(*mut u8, usize, u32, u32, u32, u64, u32, u64, *const u8, usize, *mut [u64; 3]);
type Scratch = unsafe extern "C" fn(usize, usize) -> usize;
type Count = unsafe extern "C" fn(*const u8, usize, *const u8, usize, bool, *mut usize, usize, u64, *mut [u64; 2]);
type Join =
    unsafe extern "C" fn(*const u8, usize, *const u8, usize, bool, *mut usize, usize, *mut u32, usize, *mut [u64; 2]);

/// What stands for a library that does nothing is the older one.
#[derive(Clone, Copy)]
enum Next {
    Bare(unsafe extern "C" fn(*const u8, usize, u64, u32, *mut Record)),
    #[cfg(any(old_closes, new_closes))]
    Kinds(unsafe extern "C" fn(*const u8, usize, u32, u32, u64, u32, *mut Record)),
}

/// All are called through a pointer, so that one and the same code calls them.
#[derive(Clone, Copy)]
pub struct Library {
    open: Open,
    read: Read,
    next: Next,
    start: Start,
    append: Append,
    scratch: Scratch,
    count: Count,
    join: Join,
}

#[rustfmt::skip]
macro_rules! next {
    ($before:literal, Bare) => {{
        extern "C" {
            #[link_name = concat!($before, "simmerquilt_book_next")]
            fn next(book: *const u8, length: usize, place: u64, floor: u32, answer: *mut Record);
        }
        Next::Bare(next)
    }};
    ($before:literal, Kinds) => {{
        extern "C" {
            #[link_name = concat!($before, "simmerquilt_book_next")]
            fn next(book: *const u8, length: usize, format: u32, edition: u32, place: u64, floor: u32, answer: *mut Record);
        }
        Next::Kinds(next)
    }};
}

/// The library whose names begin so, with its kind of `next`.
#[rustfmt::skip]
macro_rules! library {
    ($before:literal, $next:ident) => {{
        extern "C" {
            #[link_name = concat!($before, "simmerquilt_book_open")]
            fn open(book: *const u8, length: usize, answer: *mut Opened);
            #[link_name = concat!($before, "simmerquilt_book_read")]
            fn read(book: *const u8, length: usize, answer: *mut Whole);
            #[link_name = concat!($before, "simmerquilt_book_start")]
            fn start(room: *mut u8, room_length: usize, limited: bool, limit: u64, answer: *mut [u64; 2]);
            #[link_name = concat!($before, "simmerquilt_book_append")]
            fn append(
                room: *mut u8, room_length: usize, format: u32, edition: u32, cut: u32, length: u64, floor: u32,
                station: u64, name: *const u8, name_length: usize, answer: *mut [u64; 3],
            );
            #[link_name = concat!($before, "simmerquilt_join_scratch")]
            fn scratch(first_records: usize, second_records: usize) -> usize;
            #[link_name = concat!($before, "simmerquilt_join_count")]
            fn count(
                first: *const u8, first_length: usize, second: *const u8, second_length: usize, alternate: bool,
                scratch: *mut usize, scratch_length: usize, most: u64, answer: *mut [u64; 2],
            );
            #[link_name = concat!($before, "simmerquilt_join")]
            fn join(
                first: *const u8, first_length: usize, second: *const u8, second_length: usize, alternate: bool,
                scratch: *mut usize, scratch_length: usize, pairs: *mut u32, pairs_length: usize, answer: *mut [u64; 2],
            );
        }
        Library { open, read, next: next!($before, $next), start, append, scratch, count, join }
    }};
}

#[cfg(not(old_closes))]
pub const OLD: Library = library!("old_", Bare);
#[cfg(old_closes)]
pub const OLD: Library = library!("old_", Kinds);
#[cfg(not(new_closes))]
pub const NEW: Library = library!("new_", Bare);
#[cfg(new_closes)]
pub const NEW: Library = library!("new_", Kinds);

/// What is counted with this one is not the others' own.
pub const NIL: Library = {
    extern "C" fn open(_: *const u8, _: usize, _: *mut Opened) {}
    extern "C" fn read(_: *const u8, _: usize, _: *mut Whole) {}
    extern "C" fn next(_: *const u8, _: usize, _: u64, _: u32, _: *mut Record) {}
    extern "C" fn start(_: *mut u8, _: usize, _: bool, _: u64, _: *mut [u64; 2]) {}
    #[rustfmt::skip]
    extern "C" fn append(
        _: *mut u8, _: usize, _: u32, _: u32, _: u32, _: u64, _: u32, _: u64, _: *const u8, _: usize, _: *mut [u64; 3],
    ) {}
    extern "C" fn scratch(_: usize, _: usize) -> usize {
        0
    }
    #[rustfmt::skip]
    extern "C" fn count(
        _: *const u8, _: usize, _: *const u8, _: usize, _: bool, _: *mut usize, _: usize, _: u64, _: *mut [u64; 2],
    ) {}
    #[rustfmt::skip]
    extern "C" fn join(
        _: *const u8, _: usize, _: *const u8, _: usize, _: bool, _: *mut usize, _: usize, _: *mut u32, _: usize, _: *mut [u64; 2],
    ) {}
    Library { open, read, next: Next::Bare(next), start, append, scratch, count, join }
};

// SAFETY, of all calls here: the functions' contracts ask nothing of their caller, so that any bytes and any numbers may be passed; each
// pointer has its length behind it, and the borrows say that what is written lies apart. An answer has room for what is told last, also
// where it is not told.
impl Library {
    pub fn open(self, book: &[u8]) -> Opened {
        let mut answer = [0; 6];
        unsafe { (self.open)(book.as_ptr(), book.len(), &mut answer) };
        answer
    }

    pub fn read(self, book: &[u8]) -> Whole {
        let mut answer = [0, 0, 0, 0, 0, 0, UNTOLD];
        unsafe { (self.read)(book.as_ptr(), book.len(), &mut answer) };
        answer
    }

    #[inline]
    pub fn next(self, book: &[u8], [format, edition, _]: Header, place: u64, floor: u32) -> Record {
        let mut answer = [0, 0, 0, 0, 0, 0, 0, 0, 0, 0, 0, UNTOLD];
        match self.next {
            Next::Bare(next) => {
                // It knows one format, and records are laid out alike in all editions.
                let _ = (format, edition);
                unsafe { next(book.as_ptr(), book.len(), place, floor, &mut answer) }
            }
            #[cfg(any(old_closes, new_closes))]
            Next::Kinds(next) => unsafe { next(book.as_ptr(), book.len(), format, edition, place, floor, &mut answer) },
        }
        answer
    }

    /// Number and length.
    pub fn start(self, room: &mut [u8], limit: Option<u64>) -> [u64; 2] {
        let mut answer = [0; 2];
        unsafe { (self.start)(room.as_mut_ptr(), room.len(), limit.is_some(), limit.unwrap_or(0), &mut answer) };
        answer
    }

    /// Number, length and floor.
    #[inline]
    pub fn append(self, room: &mut [u8], header: Header, [length, floor]: [u64; 2], station: u64, name: &[u8]) -> [u64; 3] {
        let [format, edition, cut] = header;
        let (start, room) = (room.as_mut_ptr(), room.len());
        let (name, bytes) = (name.as_ptr(), name.len());
        let mut answer = [0; 3];
        unsafe {
            (self.append)(start, room, format, edition, cut, length, floor as u32, station, name, bytes, &mut answer);
        }
        answer
    }

    pub fn scratch(self, first: usize, second: usize) -> usize {
        unsafe { (self.scratch)(first, second) }
    }

    /// Number and pairs, by the primary code.
    pub fn count(self, [first, second]: [&[u8]; 2], scratch: &mut [usize]) -> [u64; 2] {
        let (one, one_length, other, other_length) = (first.as_ptr(), first.len(), second.as_ptr(), second.len());
        let (start, words) = (scratch.as_mut_ptr(), scratch.len());
        let mut answer = [0; 2];
        unsafe { (self.count)(one, one_length, other, other_length, false, start, words, u64::MAX, &mut answer) };
        answer
    }

    /// Number and pairs, by the primary code.
    pub fn join(self, [first, second]: [&[u8]; 2], scratch: &mut [usize], pairs: &mut [u32]) -> [u64; 2] {
        let (one, one_length, other, other_length) = (first.as_ptr(), first.len(), second.as_ptr(), second.len());
        let (start, words, room, numbers) = (scratch.as_mut_ptr(), scratch.len(), pairs.as_mut_ptr(), pairs.len());
        let mut answer = [0; 2];
        unsafe { (self.join)(one, one_length, other, other_length, false, start, words, room, numbers, &mut answer) };
        answer
    }
}
