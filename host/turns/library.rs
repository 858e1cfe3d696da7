use std::hint::black_box;

/// A buffer of this length is never too short.
pub const ROOM: usize = 2047;

/// Number, place, both lengths, visits.
pub type Answer = [u64; 5];

type Encode = unsafe extern "C" fn(*const u8, usize, *mut u8, usize, *mut u8, usize, bool, u64, *mut Answer);

extern "C" {
    fn old_simmerquilt_encode(
        word: *const u8,
        word_length: usize,
        primary: *mut u8,
        primary_room: usize,
        alternate: *mut u8,
        alternate_room: usize,
        limited: bool,
        limit: u64,
        answer: *mut Answer,
    );

    fn new_simmerquilt_encode(
        word: *const u8,
        word_length: usize,
        primary: *mut u8,
        primary_room: usize,
        alternate: *mut u8,
        alternate_room: usize,
        limited: bool,
        limit: u64,
        answer: *mut Answer,
    );
}

/// Both are called through a pointer, so that one and the same code calls them.
#[derive(Clone, Copy)]
pub struct Library(Encode);

pub const OLD: Library = Library(old_simmerquilt_encode);
pub const NEW: Library = Library(new_simmerquilt_encode);
/// What is counted with this one is not the others' own.
pub const NIL: Library = Library(nothing);

extern "C" fn nothing(_: *const u8, _: usize, _: *mut u8, _: usize, _: *mut u8, _: usize, _: bool, _: u64, _: *mut Answer) {}

impl Library {
    /// Where the code lies in the program.
    pub fn lies_before(self, other: Library) -> bool {
        (self.0 as usize) < (other.0 as usize)
    }

    #[inline]
    pub fn encode(self, word: &[u8], primary: &mut [u8], alternate: &mut [u8], limit: Option<usize>) -> Answer {
        let mut answer = [0; 5];
        // SAFETY: the function's contract asks nothing of its caller, so any word, any two buffers and any limit may be passed; each
        // pointer has its length behind it, and the borrows say that what is written lies apart.
        unsafe {
            (self.0)(
                word.as_ptr(),
                word.len(),
                primary.as_mut_ptr(),
                primary.len(),
                alternate.as_mut_ptr(),
                alternate.len(),
                limit.is_some(),
                limit.unwrap_or(0) as u64,
                &mut answer,
            );
        }
        answer
    }
}

/// Encodes every word. There is one such function for all, so that the same code at the same place calls either library.
#[inline(never)]
pub fn pass(library: Library, words: &[String], limit: Option<usize>) {
    let (mut primary, mut alternate) = ([0; ROOM], [0; ROOM]);
    for word in words {
        black_box(library.encode(word.as_bytes(), &mut primary, &mut alternate, limit));
    }
}
