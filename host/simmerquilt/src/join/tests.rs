//! What cannot be met from outside: a room of an odd count of numbers, and a room that no memory holds.
use super::{grow, scratch_words, JoinRefusal, Pair};
use crate::{face, Book};

const HELD: u32 = 0xeeee_eeee;

#[test]
fn an_odd_last_number_is_not_used() {
    let mut book = Book::new(Some(4)).unwrap();
    for station in [3, 300] {
        book.add(station, "Weser").unwrap();
    }
    let joined = |room: usize| {
        let mut scratch = vec![0; scratch_words(2, 2)];
        let mut room = vec![HELD; room];
        let answer = face::join(book.as_bytes(), book.as_bytes(), false, &mut scratch, &mut room);
        (answer, room)
    };
    let pairs = [3, 3, 3, 300, 300, 3, 300, 300];
    for room in 0..8 {
        assert_eq!(joined(room), ([9, 0], vec![HELD; room]));
    }
    for behind in 0..4 {
        assert_eq!(joined(8 + behind), ([0, 4], [&pairs[..], &vec![HELD; behind]].concat()));
    }
}

#[test]
fn a_room_that_no_memory_holds_is_told() {
    let mut room = vec![Pair::default(); 3];
    for length in [usize::MAX, usize::MAX / 2, usize::MAX / 8] {
        assert_eq!(grow(&mut room, length), Err(JoinRefusal::RoomShort));
        assert_eq!(room.len(), 3);
    }
    assert_eq!(grow(&mut room, 2), Ok(()));
    assert_eq!(room.len(), 3);
}
