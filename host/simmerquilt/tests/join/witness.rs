//! The library and the plain join, held against each other on the same scratch and room.
use simmerquilt::join::{count_in, join_in, scratch_words};
use simmerquilt::{Choice, JoinRefusal, Joiner, Pair};

pub const BOTH: [Choice; 2] = [Choice::Primary, Choice::Alternate];

const HELD_WORD: usize = usize::MAX / 255 * 0xee;
const HELD: Pair = Pair { first: 0xeeee_eeee, second: 0xeeee_eeee };

/// Where a refusal comes from, and its number.
#[derive(Clone, Copy, Debug, PartialEq, Eq)]
pub enum Told {
    First(u64),
    Second(u64),
    Neither(u64),
}

const ROOM_SHORT: Told = Told::Neither(9);

fn told(refusal: JoinRefusal) -> Told {
    match refusal {
        JoinRefusal::First(fault) => Told::First(fault.number()),
        JoinRefusal::Second(fault) => Told::Second(fault.number()),
        JoinRefusal::EditionsDiffer | JoinRefusal::RoomShort => Told::Neither(refusal.number()),
    }
}

/// Two strings of bytes, whatever they are, and what the plain join makes of them.
pub struct Case<'a> {
    first: &'a [u8],
    second: &'a [u8],
    choice: Choice,
    /// The words of scratch that are needed; bytes that are no book count as one without records.
    need: usize,
    expected: Result<Vec<Pair>, Told>,
}

fn expected(first: &[u8], second: &[u8], choice: Choice) -> Result<Vec<Pair>, Told> {
    plain::read(first).map_err(Told::First)?;
    plain::read(second).map_err(Told::Second)?;
    let pairs = plain::join(first, second, choice == Choice::Alternate).map_err(Told::Neither)?;
    Ok(pairs.into_iter().map(|(first, second)| Pair { first, second }).collect())
}

/// How many live records a book has.
fn live(book: &[u8]) -> usize {
    plain::read(book).map_or(0, |(_, records)| records.iter().filter(|record| record.live).count())
}

impl<'a> Case<'a> {
    pub fn new(first: &'a [u8], second: &'a [u8], choice: Choice) -> Self {
        let need = 3 * live(first) + 8 * live(second) + 1;
        Case { first, second, choice, need, expected: expected(first, second, choice) }
    }

    /// How many pairs there are; none under a refusal.
    pub fn pairs(&self) -> usize {
        self.expected.as_ref().map_or(0, Vec::len)
    }

    pub fn need(&self) -> usize {
        self.need
    }

    pub fn refused(&self) -> Option<Told> {
        self.expected.as_ref().err().copied()
    }

    fn told(&self) -> String {
        format!("{:?} of {:?} and {:?}", self.choice, self.first, self.second)
    }

    /// What a join on so much scratch gives, where there is room for the pairs.
    fn answer(&self, scratch: usize) -> Result<&[Pair], Told> {
        match &self.expected {
            Err(told) => Err(*told),
            Ok(_) if scratch < self.need => Err(ROOM_SHORT),
            Ok(pairs) => Ok(pairs),
        }
    }

    /// Held scratch, of which a join that got as far as to count has cleared what it needs.
    fn left(&self, scratch: usize, counted: bool) -> Vec<usize> {
        let mut left = vec![HELD_WORD; scratch];
        if counted {
            left[..self.need].fill(0);
        }
        left
    }

    /// Asserts the answer and every word of scratch and room, of which so much is lent.
    pub fn joins(&self, scratch: usize, room: usize) {
        let (mut lent, mut pairs) = (vec![HELD_WORD; scratch], vec![HELD; room]);
        let got = join_in(self.first, self.second, self.choice, &mut lent, &mut pairs);
        let answer = self.answer(scratch);
        let mut expected = vec![HELD; room];
        let number = match answer {
            Ok(met) if room < met.len() => Err(ROOM_SHORT),
            Ok(met) => {
                expected[..met.len()].copy_from_slice(met);
                Ok(met.len())
            }
            Err(told) => Err(told),
        };
        assert_eq!(got.map_err(told), number, "{}", self.told());
        assert!(pairs == expected, "{}", self.told());
        assert!(lent == self.left(scratch, answer.is_ok()), "{}", self.told());
    }

    /// Asserts the count under a cap, and every word of so much scratch.
    pub fn counts(&self, scratch: usize, most: u64) {
        let mut lent = vec![HELD_WORD; scratch];
        let got = count_in(self.first, self.second, self.choice, &mut lent, most);
        let answer = self.answer(scratch);
        assert_eq!(got.map_err(told), answer.map(|pairs| most.min(pairs.len() as u64)), "{most}: {}", self.told());
        assert!(lent == self.left(scratch, answer.is_ok()), "{most}: {}", self.told());
    }

    /// Asserts what the joiner gives, whatever it has joined before.
    pub fn grows(&self, joiner: &mut Joiner) {
        let counted = joiner.count(self.first, self.second, self.choice, u64::MAX).map_err(told);
        assert_eq!(counted, self.answer(self.need).map(|pairs| pairs.len() as u64), "{}", self.told());
        let got = joiner.join(self.first, self.second, self.choice).map_err(told);
        assert!(got == self.answer(self.need), "{}", self.told());
    }

    /// All this around the need: scratch and room exact, too short and more than enough, caps below, at and above the count.
    pub fn all(&self, joiner: &mut Joiner) {
        let (need, pairs) = (self.need, self.pairs());
        assert_eq!(scratch_words(live(self.first), live(self.second)), need, "{}", self.told());
        for (scratch, room) in [(need, pairs), (need + 3, pairs + 2), (need, pairs.saturating_sub(1)), (need + 1, 0)] {
            self.joins(scratch, room);
        }
        for scratch in [0, need - 1] {
            self.joins(scratch, pairs);
            self.counts(scratch, u64::MAX);
        }
        let count = pairs as u64;
        for most in [0, 1, 2, count / 2, count.saturating_sub(1), count, count + 1, u64::MAX] {
            self.counts(need, most);
        }
        self.counts(need + 3, u64::MAX);
        self.grows(joiner);
    }
}

/// Both choices of two books, in all respects.
pub fn same(first: &[u8], second: &[u8], joiner: &mut Joiner) {
    for choice in BOTH {
        Case::new(first, second, choice).all(joiner);
    }
}
