//! Going on from a known end: what adding gives, without the book being read, as long as there is room behind it.
use crate::draw;
use crate::witness::{appending, blank, codes, lent, number, written};
use plain::Writer;
use simmerquilt::book::{self, End, Header, Whole, RECORD_ROOM, STATION_END};
use simmerquilt::BookRefusal;
use words::Rng;

#[test]
fn appending_is_adding_all_along_a_list() {
    let mut rng = Rng::new(14, 0);
    for _ in 0..400 {
        let count = rng.below(30);
        let list = draw::list(&mut rng, count, draw::name);
        let room = written(&list).len() + rng.below(3);
        let blank = blank(list.format, list.edition, list.limit);
        let (mut added, mut appended) = (lent(&blank, room), lent(&blank, room));
        let mut length = blank.len();
        let Whole { header, mut end, .. } = book::read(&appended[..length]).unwrap();
        for (station, name) in &list.records {
            length = book::add_in(&mut added, length, *station, name).unwrap();
            end = book::append_in(&mut appended, header, end, *station, name).unwrap();
            assert_eq!(book::read(&appended[..length]).unwrap().end, end);
            assert_eq!(appended, added);
            // A station a second time, which in format 2 is asked only where it would fit.
            let again = number(appending(&appended, header, end, *station, name));
            assert!(again == 8 || header.format == 2 && again == 9);
        }
        assert_eq!(appended, added);
    }
}

/// Every set of conditions at once: the first in order is given, and nothing is written. In format 2 the room comes before the order,
/// which only adding can judge where the record does not fit.
#[test]
fn an_append_is_tested_for_7_and_6_and_then_as_a_record() {
    let good = b"\x01\x01\x05\x07\x01a\x01A\x01A";
    let mut long = vec![b'b'; 1025];
    for conditions in 0..128 {
        let holds = |condition: u32| conditions >> condition & 1 == 1;
        let unknown = [(0, 1), (3, 2), (u32::MAX, 1), (1, 0), (2, 0), (1, 3), (2, 3), (257, 1), (1, 258), (2, u32::MAX)];
        let known = [(1, 1), (1, 2), (2, 1), (2, 2)];
        long[9] = if holds(3) { 200 } else { b'b' };
        let name = if holds(2) { &long[..] } else { &long[..20] };
        let station = if holds(4) { STATION_END } else { 8 };
        let floor = if holds(5) { u32::MAX } else { 8 };
        let room = if holds(6) { good.len() + 3 } else { good.len() + RECORD_ROOM };
        let length = if holds(1) { room + 1 } else { good.len() };
        for (format, edition) in if holds(0) { &unknown[..] } else { &known } {
            let mut order = [(7, 0), (6, 1), (1, 2), (2, 3), (5, 4), (8, 5), (9, 6)];
            if *format == 2 {
                order.swap(5, 6);
            }
            let first = order.into_iter().find(|(_, condition)| holds(*condition));
            let header = Header { format: *format, edition: *edition, cut: 5 };
            let made = appending(&lent(good, room), header, End { length, floor }, station, name);
            match first {
                None => assert_eq!(made.unwrap().len(), good.len() + *format as usize + 21 + 5 + 5),
                Some((number, _)) => assert_eq!(made, Err(number), "{conditions}"),
            }
        }
    }
}

#[test]
fn appending_needs_just_the_room_of_the_record() {
    let mut rng = Rng::new(15, 0);
    for _ in 0..2000 {
        let (limit, name, station) = (draw::limit(&mut rng), draw::name(&mut rng), draw::number(&mut rng));
        let mut writer = Writer::of(draw::format(&mut rng), draw::edition(&mut rng), limit).unwrap();
        let book = writer.as_bytes().to_vec();
        writer.push(station, &name, codes).unwrap();
        let Whole { header, end, .. } = book::read(&book).unwrap();
        for room in [writer.as_bytes().len() - 1, writer.as_bytes().len(), writer.as_bytes().len() + 9] {
            let mut room = lent(&book, room);
            let before = room.clone();
            match book::append_in(&mut room, header, end, station, &name) {
                Ok(end) => {
                    assert_eq!(end, End { length: writer.as_bytes().len(), floor: station as u32 + 1 });
                    assert_eq!(room, lent(writer.as_bytes(), before.len()));
                }
                Err(refusal) => {
                    assert_eq!((refusal, before.len()), (BookRefusal::RoomShort, writer.as_bytes().len() - 1));
                    assert_eq!(room, before);
                }
            }
        }
    }
}

#[test]
fn where_there_is_room_appending_is_adding_and_else_adding_has_the_word() {
    let mut rng = Rng::new(16, 0);
    let mut numbers = [0; 10];
    for _ in 0..20_000 {
        let count = rng.below(5);
        let bytes = written(&draw::list(&mut rng, count, draw::short_name));
        let Whole { header, end, .. } = book::read(&bytes).unwrap();
        let station = if rng.once_in(2) { draw::number(&mut rng) } else { u64::from(end.floor).min(STATION_END - 1) };
        let name = draw::short_name(&mut rng);
        let room = lent(&bytes, bytes.len() + rng.below(40));
        let appended = appending(&room, header, end, station, &name);
        if appended != Err(9) {
            assert_eq!(appended, plain::add(&room, bytes.len() as u64, station, &name, codes));
        }
        numbers[number(appended) as usize] += 1;
    }
    assert!([0, 8, 9].iter().all(|number| numbers[*number] > 1000), "{numbers:?}");
}

#[test]
fn an_end_that_is_told_wrong_changes_only_what_is_behind_it() {
    let mut rng = Rng::new(17, 0);
    for _ in 0..20_000 {
        let count = rng.below(4);
        let bytes = written(&draw::list(&mut rng, count, draw::short_name));
        let header = Header { format: draw::format(&mut rng), edition: draw::edition(&mut rng), cut: rng.below(9) as u32 };
        let room = lent(&bytes, bytes.len() + rng.below(40));
        let end = End { length: rng.below(room.len() + 3), floor: draw::number(&mut rng) as u32 };
        let station = draw::number(&mut rng);
        let name = draw::short_name(&mut rng);
        let _ = appending(&room, header, end, station, &name);
    }
}
