//! Whole lives of books: started, added to, closed and gone on in tight rooms, of which every byte is compared after every call.
use crate::draw;
use crate::witness::{adding, appending, blank, closing, held, live_length, number, same_reading};
use simmerquilt::book::{self, Whole, STATION_END};
use words::Rng;

const LIVES: u64 = 1500;
const CALLS: usize = 40;

/// A room with a good book in front.
struct Life {
    rng: Rng,
    room: Vec<u8>,
    length: usize,
    /// How often each number came.
    numbers: [usize; 12],
}

impl Life {
    fn new(mut rng: Rng) -> Self {
        let (format, edition, limit) = (draw::format(&mut rng), draw::edition(&mut rng), draw::limit(&mut rng));
        let blank = blank(format, edition, limit);
        let mut room = held(blank.len() + rng.below(90));
        let length = blank.len();
        if (format, edition) == (2, 2) {
            assert_eq!(book::start_in(&mut room, limit), Ok(length));
            assert_eq!(room[length..], held(room.len())[length..]);
        } else {
            room[..length].copy_from_slice(&blank);
        }
        assert_eq!(room[..length], blank);
        Life { rng, room, length, numbers: [0; 12] }
    }

    fn book(&self) -> &[u8] {
        &self.room[..self.length]
    }

    fn stations(&self) -> Vec<u64> {
        let (_, records) = plain::read(self.book()).unwrap();
        records.iter().map(|record| record.station.into()).collect()
    }

    /// One in the book or beside it, or any; most are small, so that they meet.
    fn station(&mut self) -> u64 {
        let stations = self.stations();
        match self.rng.below(8) {
            0 => draw::number(&mut self.rng),
            1 => STATION_END - 1 + self.rng.below(2) as u64,
            2..=4 if !stations.is_empty() => stations[self.rng.below(stations.len())] + self.rng.below(2) as u64,
            5 | 6 => stations.last().map_or(0, |last| last + 1 + self.rng.below(3) as u64),
            _ => self.rng.below(60) as u64,
        }
    }

    /// What a call answered; where it was taken, its book is now in the room.
    fn told(&mut self, answer: Result<Vec<u8>, u64>) {
        if let Ok(book) = &answer {
            self.room[..book.len()].copy_from_slice(book);
            self.length = book.len();
            same_reading(self.book());
        }
        self.numbers[number(answer) as usize] += 1;
    }

    fn add(&mut self) {
        let (station, name) = (self.station(), draw::short_name(&mut self.rng));
        // In rooms that just fit, as the book stands and closed up, and in those of one byte less.
        let wide = [self.book(), &held(64)].concat();
        if let Ok(made) = adding(&wide, self.length, station, &name) {
            let shut = live_length(self.book()) + made.len() - self.length;
            for room in [made.len(), made.len() - 1, shut, shut - 1, self.length] {
                let _ = adding(&wide[..room], self.length, station, &name);
            }
        }
        let answer = adding(&self.room, self.length, station, &name);
        self.told(answer);
    }

    fn close(&mut self) {
        let station = self.station();
        let answer = closing(&self.room, self.length, station);
        self.told(answer);
    }

    fn append(&mut self) {
        let (station, name) = (self.station(), draw::short_name(&mut self.rng));
        let Whole { header, end, .. } = book::read(self.book()).unwrap();
        let answer = appending(&self.room, header, end, station, &name);
        self.told(answer);
    }

    /// The room comes to just hold the book, or a few bytes more.
    fn resize(&mut self) {
        let length = self.length + self.rng.below(3) * self.rng.below(30);
        let more = held(length);
        let kept = self.room.len().min(length);
        self.room.truncate(length);
        self.room.extend(&more[kept..]);
    }

    fn call(&mut self) {
        match self.rng.below(10) {
            0..=3 => self.add(),
            4..=6 => self.close(),
            7 | 8 => self.append(),
            _ => self.resize(),
        }
    }
}

#[test]
fn lives_of_books_in_tight_rooms() {
    let mut numbers = [0; 12];
    for seed in 0..LIVES {
        let mut life = Life::new(Rng::new(seed, 61));
        for _ in 0..CALLS {
            life.call();
        }
        for (number, count) in life.numbers.iter().enumerate() {
            numbers[number] += count;
        }
    }
    // Each answer that a good book and a good name can get has come often.
    assert!([0, 5, 7, 8, 9, 11].iter().all(|number| numbers[*number] > 1000), "{numbers:?}");
}
