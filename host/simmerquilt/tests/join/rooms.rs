//! Scratch and room of every length around the need, and what grows by itself.
use crate::draw;
use crate::witness::{Case, BOTH};
use simmerquilt::join::{scratch_words, Joiner};
use simmerquilt::{JoinRefusal, Pair};
use words::Rng;

#[test]
fn the_scratch_that_is_told() {
    assert_eq!(scratch_words(1_000_000, 2_000_000), 19_000_001);
    let most = usize::MAX;
    let numbers =
        [0, 1, 2, 1000, most / 11, most / 8 - 1, most / 8, most / 8 + 1, most / 3 - 1, most / 3, most / 3 + 1, most];
    for first in numbers {
        for second in numbers {
            let need = 3 * first as u128 + 8 * second as u128 + 1;
            assert_eq!(scratch_words(first, second), usize::try_from(need).unwrap_or(most), "{first}, {second}");
        }
    }
}

#[test]
fn every_length_of_scratch_and_room() {
    let rng = &mut Rng::new(1, 7);
    let pool = draw::pool(rng, 4);
    for (one, other) in [(0, 0), (0, 2), (2, 0), (1, 1), (3, 2), (5, 6)] {
        let first = draw::book(Some(4), &draw::named(rng, &pool, one));
        let second = draw::book(Some(6), &draw::named(rng, &pool, other));
        for choice in BOTH {
            let case = Case::new(first.as_bytes(), second.as_bytes(), choice);
            for scratch in 0..case.need() + 4 {
                for room in 0..case.pairs() + 3 {
                    case.joins(scratch, room);
                }
                for most in 0..case.pairs() as u64 + 3 {
                    case.counts(scratch, most);
                }
            }
        }
    }
}

#[test]
fn a_joiner_serves_one_join_after_another() {
    let rng = &mut Rng::new(1, 8);
    let pool = draw::pool(rng, 20);
    let mut joiner = Joiner::new();
    // Larger and smaller in turn, so that it grows by scratch, by room, and not at all.
    for (one, other) in [(3, 2), (100, 0), (2, 3), (40, 40), (0, 0), (0, 100), (60, 60), (1, 1)] {
        let first = draw::book(Some(1), &draw::named(rng, &pool, one));
        let second = draw::book(None, &draw::named(rng, &pool, other));
        for choice in BOTH {
            Case::new(first.as_bytes(), second.as_bytes(), choice).grows(&mut joiner);
            assert_eq!(joiner.join(&first, &second, choice), Ok(&first.join(&second, choice).unwrap()[..]));
        }
    }
}

#[test]
fn a_pair_is_two_numbers() {
    assert_eq!((size_of::<Pair>(), align_of::<Pair>()), (8, 4));
}

#[test]
fn refusals_read_well() {
    let fault = simmerquilt::BookRefusal::CutShort;
    assert_eq!(JoinRefusal::First(fault).to_string(), "first book: the book is cut short");
    assert_eq!(JoinRefusal::Second(fault).to_string(), "second book: the book is cut short");
    assert_eq!(JoinRefusal::EditionsDiffer.to_string(), "the books are of different editions");
    assert_eq!([JoinRefusal::EditionsDiffer, JoinRefusal::RoomShort].map(JoinRefusal::number), [10, 9]);
}
