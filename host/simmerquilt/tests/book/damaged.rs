//! Books with closed records that are cut short at every byte, or have any byte changed into each other one: read, walked, closed and
//! added to.
use crate::draw;
use crate::witness::{adding, closing, lent, same_reading, written};
use words::Rng;

const BOOKS: usize = 24;

/// Good books of format 2 with their stations, some of them closed; none is long.
fn books(seed: u64) -> impl Iterator<Item = (Vec<u8>, Vec<u64>)> {
    let mut rng = Rng::new(seed, 0);
    (0..BOOKS).map(move |_| {
        let count = 1 + rng.below(4);
        let mut list = draw::list_in(2, &mut rng, count, draw::short_name);
        while list.closed.is_empty() {
            list = draw::list_in(2, &mut rng, count, draw::short_name);
        }
        (written(&list), list.records.iter().map(|(station, _)| *station).collect())
    })
}

/// Everything that is done to these bytes, in a room that is as long, and in one that is longer.
fn same_in_all(bytes: &[u8], stations: &[u64]) {
    same_reading(bytes);
    for room in [bytes.len(), bytes.len() + 24] {
        let room = lent(bytes, room);
        for station in stations {
            let _ = closing(&room, bytes.len(), *station);
        }
        for station in [stations[0], stations[stations.len() - 1] + 1, (1 << 28) - 1] {
            let _ = adding(&room, bytes.len(), station, b"Ayr");
        }
    }
}

#[test]
fn each_byte_changed_into_each_other() {
    for (mut bytes, stations) in books(51) {
        for place in 0..bytes.len() {
            let byte = bytes[place];
            for changed in (0..=255).filter(|changed| *changed != byte) {
                bytes[place] = changed;
                same_in_all(&bytes, &stations);
            }
            bytes[place] = byte;
        }
    }
}

#[test]
fn each_prefix() {
    for (bytes, stations) in books(52) {
        for length in 0..=bytes.len() {
            same_in_all(&bytes[..length], &stations);
            // The rest of the book is there, but is not stated.
            for station in &stations {
                let _ = closing(&bytes, length, *station);
            }
            let _ = adding(&bytes, length, (1 << 28) - 1, b"Ayr");
        }
    }
}

#[test]
fn two_bytes_changed() {
    let mut rng = Rng::new(53, 0);
    for (bytes, stations) in books(54) {
        for _ in 0..500 {
            let mut bytes = bytes.clone();
            for _ in 0..2 {
                let place = rng.below(bytes.len());
                bytes[place] = if rng.once_in(2) { rng.byte() } else { rng.below(3) as u8 };
            }
            same_in_all(&bytes, &stations);
        }
    }
}
