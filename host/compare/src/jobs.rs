//! What is compared, cut into jobs that threads take in turn. A job draws from its own stream of the seed, so what is compared
//! does not hang on the number of threads.
use crate::draw::{self, Kind};
use crate::trial::{Rooms, Trial};
use simmerquilt::WORD_LIMIT;
use words::{Rng, SHORT, UNKNOWN_EDITIONS};

const ALPHABET: &[u8; 27] = b"ABCDEFGHIJKLMNOPQRSTUVWXYZ ";

const LIMITS: &[Option<u64>] = &[None, Some(0), Some(1), Some(2), Some(3), Some(4), Some(6), Some(65_536)];
const NO_LIMIT: &[Option<u64>] = &[None];
const SMALL_LIMITS: &[Option<u64>] = &[Some(1), Some(2), Some(3)];

const ANY_ROOMS: &[Rooms] = &[Rooms::Spare, Rooms::Exact, Rooms::PrimaryShort, Rooms::AlternateShort];
const ENOUGH: &[Rooms] = &[Rooms::Spare];

/// Words, or questions, of a drawn job whose words are short.
const DRAWN: usize = 4000;

#[derive(Clone, Copy, Debug)]
pub enum Job {
    /// Every word of `length` over the alphabet, that begins with `first`, at each limit, with each room.
    Every { length: usize, first: u8, limits: &'static [Option<u64>], rooms: &'static [Rooms] },
    /// Short words of a kind.
    Short { kind: Kind, stream: u64 },
    /// One word of each length from 0 to one more than is taken.
    Sweep { kind: Kind, stream: u64 },
    /// Pairs of short words that are often alike.
    Pairs { stream: u64 },
}

/// What drawn jobs are, in turn. A sweep takes as long as some ten jobs of short words.
fn drawn(stream: u64) -> Job {
    match stream % 40 {
        0 => Job::Sweep { kind: Kind::Letters, stream },
        1 => Job::Sweep { kind: Kind::Fragments, stream },
        2 => Job::Sweep { kind: Kind::Ascii, stream },
        3 => Job::Sweep { kind: Kind::AnyBytes, stream },
        4 => Job::Sweep { kind: Kind::Longest, stream },
        5 => Job::Sweep { kind: Kind::Van, stream },
        6..=8 => Job::Short { kind: Kind::Letters, stream },
        9..=11 => Job::Short { kind: Kind::Ascii, stream },
        12..=13 => Job::Short { kind: Kind::AnyBytes, stream },
        14..=17 => Job::Short { kind: Kind::Names, stream },
        18..=23 => Job::Pairs { stream },
        24..=29 => Job::Short { kind: Kind::Van, stream },
        _ => Job::Short { kind: Kind::Fragments, stream },
    }
}

/// The jobs of a run: first those that are always done, then drawn ones.
pub struct Plan {
    always: Vec<Job>,
    drawn: u64,
}

impl Plan {
    /// All words of up to 3 bytes at every limit and of 4 bytes with none, then as much drawn as there is time for.
    pub fn bounded() -> Self {
        Plan { always: short_words(), drawn: u64::MAX }
    }

    /// Also words of 4 bytes under small limits and of 5 bytes, and a fixed number of drawn jobs.
    pub fn full() -> Self {
        let mut always = short_words();
        always.extend(every(4, SMALL_LIMITS, ENOUGH));
        always.extend(every(5, NO_LIMIT, ENOUGH));
        Plan { always, drawn: 8000 }
    }

    /// A taste of each kind of job, for the tests.
    #[cfg(test)]
    pub fn taste() -> Self {
        let always = (0..3).flat_map(|length| every(length, LIMITS, ANY_ROOMS)).collect();
        Plan { always, drawn: 40 }
    }

    /// The job with this index, and whether it may be left out when time is up.
    pub fn job(&self, index: usize) -> Option<(Job, bool)> {
        match self.always.get(index) {
            Some(job) => Some((*job, false)),
            None => {
                let stream = (index - self.always.len()) as u64;
                (stream < self.drawn).then(|| (drawn(stream), true))
            }
        }
    }
}

fn short_words() -> Vec<Job> {
    let mut jobs: Vec<Job> = (0..4).flat_map(|length| every(length, LIMITS, ANY_ROOMS)).collect();
    jobs.extend(every(4, NO_LIMIT, ENOUGH));
    jobs
}

/// One job a first letter. The empty word has none, and one job.
fn every(length: usize, limits: &'static [Option<u64>], rooms: &'static [Rooms]) -> Vec<Job> {
    let firsts = if length == 0 { &ALPHABET[..1] } else { &ALPHABET[..] };
    firsts.iter().map(|&first| Job::Every { length, first, limits, rooms }).collect()
}

impl Job {
    /// Puts each of the job's trials to `check`, until one fails.
    pub fn run<E>(self, seed: u64, mut check: impl FnMut(Trial) -> Result<(), E>) -> Result<(), E> {
        match self {
            Job::Every { length, first, limits, rooms } => every_word(length, first, |word| {
                for (&limit, unknown) in limits.iter().zip(UNKNOWN_EDITIONS.into_iter().cycle()) {
                    for &rooms in rooms {
                        check(Trial::Encode { word, limit, rooms, unknown })?;
                    }
                }
                Ok(())
            }),
            Job::Short { kind, stream } => {
                let rng = &mut Rng::new(seed, stream);
                (0..DRAWN).try_for_each(|_| {
                    let length = rng.below(SHORT);
                    check_drawn(rng, kind, length, &mut check)
                })
            }
            Job::Sweep { kind, stream } => {
                let rng = &mut Rng::new(seed, stream);
                (0..=WORD_LIMIT + 1).try_for_each(|length| check_drawn(rng, kind, length, &mut check))
            }
            Job::Pairs { stream } => {
                let rng = &mut Rng::new(seed, stream);
                (0..DRAWN).try_for_each(|_| check_pair(rng, &mut check))
            }
        }
    }
}

fn every_word<E>(length: usize, first: u8, mut check: impl FnMut(&[u8]) -> Result<(), E>) -> Result<(), E> {
    let behind = length.saturating_sub(1);
    let mut word = vec![first; length];
    for number in 0..ALPHABET.len().pow(behind as u32) {
        let mut rest = number;
        for byte in word.iter_mut().skip(1) {
            *byte = ALPHABET[rest % ALPHABET.len()];
            rest /= ALPHABET.len();
        }
        check(&word)?;
    }
    Ok(())
}

fn check_drawn<E>(
    rng: &mut Rng,
    kind: Kind,
    length: usize,
    check: &mut impl FnMut(Trial) -> Result<(), E>,
) -> Result<(), E> {
    let word = draw::word(rng, kind, length);
    let (limit, rooms, unknown) = (draw::limit(rng, word.len()), draw::rooms(rng), draw::unknown(rng));
    check(Trial::Encode { word: &word, limit, rooms, unknown })
}

fn check_pair<E>(rng: &mut Rng, check: &mut impl FnMut(Trial) -> Result<(), E>) -> Result<(), E> {
    let kind = match rng.below(16) {
        0 => Kind::AnyBytes,
        1..=4 => Kind::Names,
        // The question is edition 1's.
        5..=6 => Kind::Van,
        _ => Kind::Fragments,
    };
    let length = if rng.once_in(64) { WORD_LIMIT - 2 + rng.below(5) } else { rng.below(SHORT) };
    let first = draw::word(rng, kind, length);
    let second = match rng.below(8) {
        0 => draw::word(rng, Kind::Fragments, length),
        1 => draw::word(rng, Kind::AnyBytes, length),
        _ => draw::alike(rng, &first),
    };
    let limit = draw::limit(rng, length);
    let alternate = rng.once_in(2);
    check(Trial::Equal { first: &first, second: &second, limit, alternate })
}
