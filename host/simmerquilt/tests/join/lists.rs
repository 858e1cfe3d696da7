//! What the join is for: one office keys its gauges at four, another at six, and the stored keys of one gauge differ.
use crate::draw;
use crate::names::by_names;
use crate::witness::BOTH;
use simmerquilt::{Book, Choice, JoinRefusal, Pair};
use std::path::Path;

fn stored(name: &str) -> Book {
    let folder = Path::new(env!("CARGO_MANIFEST_DIR")).join("../../tests/books");
    Book::load(folder.join(format!("{name}.book"))).unwrap()
}

/// The pairs whose stored primary keys are equal, as an office would compare them.
fn by_stored_keys(first: &Book, second: &Book) -> Vec<Pair> {
    let mut pairs = Vec::new();
    for one in first {
        let met = second.records().filter(|other| other.primary == one.primary);
        pairs.extend(met.map(|other| Pair { first: one.station, second: other.station }));
    }
    pairs
}

#[test]
fn the_stored_lists_meet_by_the_join() {
    let (four, six) = (stored("gauges-4"), stored("gauges-6"));
    let pairs = four.join(&six, Choice::Primary).unwrap();
    let own = |pairs: &[Pair]| pairs.iter().filter(|pair| pair.first == pair.second).count();
    // Both books have the same gauges, but few have a key that four bytes hold whole.
    assert_eq!(own(&pairs), four.len());
    assert!(own(&by_stored_keys(&four, &six)) < four.len() / 4);
    assert!(by_stored_keys(&four, &six).iter().all(|pair| pairs.binary_search(pair).is_ok()));
}

#[test]
fn the_stored_lists_meet_as_their_names_do() {
    let (four, six) = (stored("gauges-4"), stored("gauges-6"));
    for (first, second) in [(&four, &six), (&six, &four), (&four, &four), (&six, &six)] {
        for choice in BOTH {
            assert_eq!(first.join(second, choice).unwrap(), by_names(first, second, choice));
        }
    }
}

#[test]
fn the_stored_lists_of_different_editions_are_not_joined() {
    let (four, six, new) = (stored("gauges-4"), stored("gauges-6"), stored("gauges-4-edition-2"));
    for choice in BOTH {
        for old in [&four, &six] {
            assert_eq!(old.join(&new, choice), Err(JoinRefusal::EditionsDiffer));
            assert_eq!(new.join(old, choice), Err(JoinRefusal::EditionsDiffer));
        }
        assert_eq!(new.join(&new, choice).unwrap(), by_names(&new, &new, choice));
    }
}

#[test]
fn the_stored_lists_of_different_formats_meet_without_the_closed_stations() {
    let (old, new, shut) = (stored("gauges-4-edition-2"), stored("gauges-4-format-2"), stored("gauges-4-closed-up"));
    for choice in BOTH {
        let closed = |station: u32| matches!(station, 10 | 268_435_455);
        let all = old.join(&old, choice).unwrap();
        let live: Vec<Pair> = all.iter().copied().filter(|pair| !closed(pair.second)).collect();
        assert!(live.len() < all.len());
        assert_eq!(old.join(&new, choice).unwrap(), live);
        for (first, second) in [(&old, &new), (&new, &old), (&new, &new), (&new, &shut), (&shut, &old)] {
            assert_eq!(first.join(second, choice).unwrap(), by_names(first, second, choice));
        }
    }
}

#[test]
fn van_chi_meets_as_its_edition_sounds() {
    let met = |edition, choice| {
        let book = |name: &str| draw::book_in(edition, Some(4), &[(10, name.to_string())]);
        ["Van Key", "Van Shea"].map(|other| book("Van Chi").join(&book(other), choice).unwrap().len())
    };
    assert_eq!(met(1, Choice::Primary), [0, 1]);
    assert_eq!(met(2, Choice::Primary), [1, 0]);
    // The alternate code is the same by both.
    assert_eq!(met(1, Choice::Alternate), [1, 0]);
    assert_eq!(met(2, Choice::Alternate), [1, 0]);
}

fn book(limit: u64, names: &[(u64, &str)]) -> Book {
    let mut book = Book::new(Some(limit)).unwrap();
    for (station, name) in names {
        book.add(*station, name).unwrap();
    }
    book
}

#[test]
fn gauges_of_two_spellings_meet_by_the_join() {
    let ours = book(4, &[(3, "Rogier Mill"), (7, "Villa Bridge"), (12, "Schermerhorn"), (40, "Saj"), (300, "Jacinto")]);
    let theirs = book(6, &[(1, "Fila Bridge"), (2, "Rojier Mille"), (5, "Shermer Horn"), (6, "Weser"), (9, "Sajj")]);
    let pair = |(first, second)| Pair { first, second };
    let met = [(3, 2), (7, 1), (12, 5), (40, 9)].map(pair);
    assert_eq!(ours.join(&theirs, Choice::Primary).unwrap(), met);
    // Only the one whose key is short has the same key in both books.
    assert_eq!(by_stored_keys(&ours, &theirs), [(40, 9)].map(pair));
    for choice in BOTH {
        assert_eq!(ours.join(&theirs, choice).unwrap(), by_names(&ours, &theirs, choice));
    }
}
