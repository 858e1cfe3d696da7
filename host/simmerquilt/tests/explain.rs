//! The listing of the rules that spoke, beside the one that `plain` makes from the table of cases: every row, every number of the lent
//! room, every refusal, and the codes that the gains make.
use plain::{in_room, Listed, Row};
use simmerquilt::{encode_into_in, explain_into, CODE_ROOM, WORD_LIMIT};
use words::{mixed, word, Kind, Rng, EXAMPLES, FIRST_TOLD, TOLD, UNKNOWN_EDITIONS};

const HELD: u32 = 0xeeee_eeee;

/// Numbers a row.
const ROW: usize = 7;

const EDITIONS: [u64; 2] = [1, 2];
const LIMITS: [Option<u64>; 5] = [None, Some(0), Some(1), Some(4), Some(6)];

/// How many drawn words the library is asked for, each by both editions at every limit.
const WORDS: usize = 100_000;

/// The number, the place and the rows of an answer.
type Answer = (u64, usize, usize);

/// What the library answers on a room of so many numbers, and what the room holds then.
fn lent(edition: u64, word: &[u8], limit: Option<u64>, room: usize) -> (Answer, Vec<u32>) {
    let mut rows = vec![HELD; room];
    let told = explain_into(edition, word, limit, &mut rows);
    ((told.number, told.place, told.rows), rows)
}

/// A word by an edition under a limit, and what `plain` makes of it.
struct Listing<'a> {
    edition: u64,
    word: &'a [u8],
    limit: Option<u64>,
    expected: Listed,
}

impl<'a> Listing<'a> {
    fn new(edition: u64, word: &'a [u8], limit: Option<u64>) -> Self {
        Listing { edition, word, limit, expected: plain::listed(edition, word, limit) }
    }

    fn shown(&self) -> String {
        format!("b\"{}\" by edition {} under {:?}", self.word.escape_ascii(), self.edition, self.limit)
    }

    /// The numbers that just hold the rows; none under a refusal.
    fn need(&self) -> usize {
        self.expected.as_ref().map_or(0, |rows| ROW * rows.len())
    }

    /// Asserts the answer on a room of so many numbers, and each of them.
    fn fills(&self, room: usize) {
        let (answer, rows): (Answer, &[Row]) = match in_room(&self.expected, room / ROW) {
            Err(refused) => ((refused.number, refused.place, 0), &[]),
            Ok(rows) => ((0, 0, rows.len()), rows),
        };
        let mut held: Vec<u32> = rows.iter().flat_map(Row::numbers).collect();
        held.resize(room, HELD);
        let got = lent(self.edition, self.word, self.limit, room);
        assert_eq!(got.0, answer, "{}, room for {room} numbers", self.shown());
        assert!(got.1 == held, "{}, room for {room} numbers: expected {held:?}, got {:?}", self.shown(), got.1);
    }

    /// Rooms that just hold the rows, that have numbers left over which make no row, and that lack one number or one row.
    fn fills_all(&self) {
        let need = self.need();
        for room in [need, need + ROW - 1, need.saturating_sub(1), need.saturating_sub(ROW)] {
            self.fills(room);
        }
    }

    /// Asserts that there is a row a visit of the encoder, and that the gains that the library tells, joined and clipped, are its codes.
    fn makes_the_codes(&self) {
        let (mut primary, mut alternate) = ([0; CODE_ROOM], [0; CODE_ROOM]);
        let answer = encode_into_in(self.edition, self.word, &mut primary, &mut alternate, self.limit);
        let ((number, place, visits), numbers) = lent(self.edition, self.word, self.limit, self.need());
        assert_eq!((number, place, visits), (answer.number, answer.place, answer.visits), "{}", self.shown());
        let limit = self.limit.map_or(usize::MAX, |limit| limit.try_into().unwrap_or(usize::MAX));
        for (column, code) in [(4, &primary[..answer.primary]), (5, &alternate[..answer.alternate])] {
            let gains = numbers.chunks(ROW).flat_map(|row| [row[column] % 256, row[column] / 256]);
            let joined: Vec<u8> = gains.filter(|byte| *byte != 0).map(|byte| byte as u8).take(limit).collect();
            assert_eq!(joined, code, "{}", self.shown());
        }
    }
}

/// A word in all respects, by both editions at every limit.
fn explained(word: &[u8]) {
    for edition in EDITIONS {
        for limit in LIMITS {
            let listing = Listing::new(edition, word, limit);
            listing.fills_all();
            listing.makes_the_codes();
        }
    }
}

#[test]
fn drawn_words_have_the_rows_of_the_table() {
    mixed(&mut Rng::new(6, 3), WORDS).iter().for_each(|word| explained(word));
}

/// All words of one to three bytes over A to Z and the space, as the comparison has them.
#[test]
fn short_words_have_the_rows_of_the_table() {
    let letters: Vec<u8> = (b'A'..=b'Z').chain([b' ']).collect();
    let longer = |words: &[Vec<u8>]| -> Vec<Vec<u8>> {
        words.iter().flat_map(|word| letters.iter().map(|letter| [word.as_slice(), &[*letter]].concat())).collect()
    };
    let one = longer(&[Vec::new()]);
    let two = longer(&one);
    let three = longer(&two);
    [one, two, three].concat().iter().for_each(|word| explained(word));
}

#[test]
fn words_of_every_length_have_the_rows_of_the_table() {
    let rng = &mut Rng::new(6, 4);
    for length in (0..WORD_LIMIT - 8).step_by(9).chain(WORD_LIMIT - 8..=WORD_LIMIT + 1) {
        for kind in [Kind::Fragments, Kind::Ascii, Kind::AnyBytes, Kind::Van, Kind::Longest] {
            explained(&word(rng, kind, length));
        }
    }
}

#[test]
fn limits_may_be_any_number() {
    let rng = &mut Rng::new(6, 5);
    for word in mixed(rng, 2_000) {
        for edition in EDITIONS {
            for limit in [2, 3, 5, rng.below(64) as u64, 65_536, 1 << 32, u64::MAX - 1, u64::MAX] {
                let listing = Listing::new(edition, &word, Some(limit));
                listing.fills_all();
                listing.makes_the_codes();
            }
        }
    }
}

/// The row of cases that a told letter belongs to, as the lists of words name it.
fn key(letter: u32) -> String {
    match char::from_u32(letter).expect("a letter is a byte") {
        'A' | 'E' | 'I' | 'O' | 'U' | 'Y' => "A".to_string(),
        letter @ 'A'..='Z' => letter.to_string(),
        _ => "rest".to_string(),
    }
}

/// The letter's row, the case and the text of each visit under no limit, as the library tells them.
fn told(edition: u64, word: &str) -> Vec<(String, usize, usize)> {
    let (answer, numbers) = lent(edition, word.as_bytes(), None, ROW * word.len());
    assert_eq!(answer.0, 0, "{word:?}");
    numbers.chunks(ROW).take(answer.2).map(|row| (key(row[1]), row[2] as usize, row[3] as usize)).collect()
}

#[test]
fn each_example_takes_its_case() {
    for &(letter, case, word) in EXAMPLES {
        let told = told(1, word);
        assert!(told.iter().any(|row| (row.0.as_str(), row.1) == (letter, case)), "{word:?} tells {told:?}");
        explained(word.as_bytes());
    }
}

#[test]
fn each_text_is_told_by_its_word() {
    for &(letter, case, _, text, word) in TOLD {
        for edition in EDITIONS {
            let told = told(edition, word);
            assert!(told.contains(&(letter.to_string(), case, text)), "{word:?} tells {told:?}");
        }
        explained(word.as_bytes());
    }
}

#[test]
fn the_first_window_that_is_a_text_tells_its_number() {
    for &(word, place, letter, case, text) in FIRST_TOLD {
        for edition in EDITIONS {
            let (_, numbers) = lent(edition, word.as_bytes(), None, ROW * word.len());
            let index = numbers.chunks(ROW).position(|row| row[0] as usize == place).expect("the place is visited");
            assert_eq!(told(edition, word)[index], (letter.to_string(), case, text), "{word:?}");
        }
    }
}

#[test]
fn a_listing_as_the_desk_sees_it() {
    let (answer, numbers) = lent(1, b" Villa\t", Some(2), 5 * ROW);
    assert_eq!(answer, (0, 0, 4));
    let [f, i, l, v, a] = *b"FILVA";
    #[rustfmt::skip]
    let rows = [
        [0, v.into(), 2, 0, f.into(), f.into(), 0],
        [1, i.into(), 2, 0, 0, 0, 0],
        [2, l.into(), 1, 2, l.into(), 0, 1],
        [4, a.into(), 2, 0, 0, 0, 0],
        [HELD; ROW],
    ];
    assert_eq!(numbers, rows.concat());
}

#[test]
fn van_chi_is_told_by_both_editions() {
    let chi = |edition| lent(edition, b"Van Chi", None, 6 * ROW).1[4 * ROW..5 * ROW].to_vec();
    let [c, k, x] = [b'C', b'K', b'X'].map(u32::from);
    assert_eq!(chi(1), [4, c, 6, 1, x, k, 1]);
    assert_eq!(chi(2), [4, c, 4, 1, k, k, 1]);
}

#[test]
fn every_room_holds_the_rows_or_is_left_alone() {
    for word in ["", "  ", "x", "Van Chi", "jumped", "Schermerhorn", "Mac Gregor", "Sioux Lookout", "Oder\u{e9}"] {
        for edition in EDITIONS {
            for limit in LIMITS {
                let listing = Listing::new(edition, word.as_bytes(), limit);
                (0..=listing.need() + 2 * ROW).for_each(|room| listing.fills(room));
            }
        }
    }
}

#[test]
fn the_longest_word_fills_the_largest_room() {
    let longest = word(&mut Rng::new(6, 6), Kind::Longest, WORD_LIMIT);
    for edition in EDITIONS {
        assert_eq!(lent(edition, &longest, None, ROW * WORD_LIMIT).0, (0, 0, WORD_LIMIT));
        assert_eq!(lent(edition, &longest, None, ROW * WORD_LIMIT - 1), ((9, 0, 0), vec![HELD; ROW * WORD_LIMIT - 1]));
    }
}

#[test]
fn refusals_come_in_their_order() {
    let long = [0xff; WORD_LIMIT + 1];
    // Each word with the first refusal that it has on no room by a known edition, and on a room that is large enough.
    let words: [(&[u8], Answer, Answer); 8] = [
        (&long, (1, 0, 0), (1, 0, 0)),
        (&[b' '; WORD_LIMIT + 1], (1, 0, 0), (1, 0, 0)),
        (&long[1..], (2, 0, 0), (2, 0, 0)),
        (b"  Oder\x80\xff", (2, 6, 0), (2, 6, 0)),
        (b"\x80", (2, 0, 0), (2, 0, 0)),
        (b"Oder", (9, 0, 0), (0, 0, 4)),
        (b"\x7f", (9, 0, 0), (0, 0, 1)),
        (b" \t\r\n", (0, 0, 0), (0, 0, 0)),
    ];
    for (word, on_nothing, on_enough) in words {
        for room in [0, ROW - 1, ROW * WORD_LIMIT] {
            for edition in UNKNOWN_EDITIONS {
                for limit in LIMITS {
                    assert_eq!(lent(edition, word, limit, room), ((7, 0, 0), vec![HELD; room]), "edition {edition}");
                }
            }
            for edition in EDITIONS {
                let expected = if room < ROW { on_nothing } else { on_enough };
                let got = lent(edition, word, None, room);
                assert_eq!(got.0, expected, "b\"{}\" by edition {edition}", word.escape_ascii());
                assert!(got.1[ROW * expected.2..].iter().all(|number| *number == HELD));
            }
        }
    }
}

#[test]
fn a_word_that_is_refused_is_so_at_every_limit() {
    for edition in EDITIONS {
        for limit in LIMITS {
            assert_eq!(lent(edition, &[b'b'; WORD_LIMIT + 1], limit, 0).0, (1, 0, 0));
            assert_eq!(lent(edition, b"Od\xc3\xa9r", limit, 0).0, (2, 2, 0));
        }
        // No visit needs no room, and under the limit 0 there is none.
        assert_eq!(lent(edition, b"Oder", Some(0), 0).0, (0, 0, 0));
        assert_eq!(lent(edition, b"Oder", Some(1), 0).0, (9, 0, 0));
        assert_eq!(lent(edition, b"Oder", Some(1), ROW).0, (0, 0, 1));
    }
}
