//! A room for the rows of a listing, with guards around it, and what must be in it then: the rows that the plain evaluator makes.
use plain::{in_room, Listed, Refused, Row};
use simmerquilt::{Told, ROW};

/// Numbers before and behind the room.
const GUARD: usize = 8;

/// What every number holds before a call. No number of a row is as large.
const HELD: u32 = 0xeeee_eeee;

/// One stretch of memory: guard, room, guard.
pub struct Room {
    numbers: Vec<u32>,
}

impl Room {
    pub fn new() -> Self {
        Room { numbers: Vec::new() }
    }

    /// A fresh room of so many numbers.
    pub fn lent(&mut self, length: usize) -> &mut [u32] {
        self.numbers.clear();
        self.numbers.resize(GUARD + length + GUARD, HELD);
        &mut self.numbers[GUARD..GUARD + length]
    }

    /// Whether the room begins with these rows and every other number, guards included, keeps what it held.
    pub fn holds(&self, rows: &[Row]) -> bool {
        let end = GUARD + ROW * rows.len();
        let kept = |numbers: &[u32]| numbers.iter().all(|number| *number == HELD);
        kept(&self.numbers[..GUARD])
            && rows.iter().flat_map(Row::numbers).eq(self.numbers[GUARD..end].iter().copied())
            && kept(&self.numbers[end..])
    }

    /// All of it as it is now, by rows, for a report.
    pub fn shown(&self) -> String {
        let kept = |number: &u32| if *number == HELD { "-".to_string() } else { number.to_string() };
        let line = |numbers: &[u32]| numbers.iter().map(kept).collect::<Vec<_>>().join(" ");
        let (before, rest) = self.numbers.split_at(GUARD);
        let rows: Vec<String> = std::iter::once(before).chain(rest.chunks(ROW)).map(line).collect();
        rows.join(" | ")
    }
}

/// The numbers that just hold the rows; none under a refusal.
pub fn need(listed: &Listed) -> usize {
    listed.as_ref().map_or(0, |rows| ROW * rows.len())
}

/// The answer on a room of so many numbers, and the rows that are in it then.
pub fn expected(listed: &Listed, room: usize) -> (Told, &[Row]) {
    match in_room(listed, room / ROW) {
        Err(Refused { number, place }) => (Told { number, place, rows: 0 }, &[]),
        Ok(rows) => (Told { number: 0, place: 0, rows: rows.len() }, rows),
    }
}
