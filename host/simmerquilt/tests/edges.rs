//! Document 01's edges, which are those of both editions: what is refused, by which number, and what is left alone.
use simmerquilt::{ask_equal, encode_into, encode_into_in, Answer, DoubleMetaphone, Edition, Refusal, Which, WordRefusal};
use simmerquilt::{CODE_ROOM, WORD_LIMIT};
use words::UNKNOWN_EDITIONS;

const HELD: u8 = 0xee;

/// The answer on buffers of these lengths, and what they hold then: the same by each call on words that the editions agree on.
fn lent(word: &[u8], primary: usize, alternate: usize, limit: Option<u64>) -> (Answer, Vec<u8>, Vec<u8>) {
    let (mut p, mut a) = (vec![HELD; primary], vec![HELD; alternate]);
    let answer = encode_into(word, &mut p, &mut a, limit);
    for edition in [Edition::One, Edition::Two] {
        assert_eq!(
            lent_in(edition.number(), word, primary, alternate, limit),
            (answer, p.clone(), a.clone()),
            "{edition:?}"
        );
    }
    (answer, p, a)
}

fn lent_in(edition: u64, word: &[u8], primary: usize, alternate: usize, limit: Option<u64>) -> (Answer, Vec<u8>, Vec<u8>) {
    let (mut primary, mut alternate) = (vec![HELD; primary], vec![HELD; alternate]);
    let answer = encode_into_in(edition, word, &mut primary, &mut alternate, limit);
    (answer, primary, alternate)
}

fn number(word: &[u8], primary: usize, alternate: usize, limit: Option<u64>) -> u64 {
    lent(word, primary, alternate, limit).0.number
}

#[test]
fn the_longest_word_has_1024_bytes() {
    let encoder = DoubleMetaphone::new(None);
    assert!(encoder.encode(vec![b'b'; WORD_LIMIT]).is_ok());
    assert_eq!(encoder.encode(vec![b'b'; WORD_LIMIT + 1]), Err(Refusal::TooLong));
    // Blanks count before trimming, and length is tested before ASCII.
    assert_eq!(encoder.encode(vec![b' '; WORD_LIMIT + 1]), Err(Refusal::TooLong));
    assert_eq!(encoder.encode(vec![0xff; WORD_LIMIT + 1]), Err(Refusal::TooLong));
}

#[test]
fn ascii_ends_at_127() {
    let encoder = DoubleMetaphone::default();
    assert_eq!(encoder.encode([127]), Ok(String::new()));
    assert_eq!(encoder.encode([128]), Err(Refusal::NotAscii { place: 0 }));
    // The place is that in the word as given, of the first such byte.
    assert_eq!(encoder.encode("  ab\u{e7}\u{f1}"), Err(Refusal::NotAscii { place: 4 }));
    // ASCII is tested before the buffers.
    assert_eq!(number(b"b\x80", 0, 0, None), 2);
}

#[test]
fn need_is_twice_the_trimmed_length_less_one() {
    for (primary, alternate, expected) in [(5, 5, 0), (4, 5, 3), (5, 4, 4), (4, 4, 3), (0, 0, 3)] {
        assert_eq!(number(b"KXZ", primary, alternate, None), expected);
        assert_eq!(number(b" KXZ\t", primary, alternate, None), expected);
        assert_eq!(number(b"KXZ", primary, alternate, Some(5)), expected);
        assert_eq!(number(b"KXZ", primary, alternate, Some(u64::MAX)), expected);
    }
    assert_eq!(number(b"KXZ", 4, 4, Some(4)), 0);
    assert_eq!(number(b"KXZ", 0, 0, Some(0)), 0);
    assert_eq!(number(b" \t\r", 0, 0, None), 0);
    assert_eq!(number(b"", 0, 0, None), 0);
}

#[test]
fn codes_can_need_all_their_room() {
    for t in [1, 2, 3, 4, 5, 64, 511, WORD_LIMIT] {
        let word: Vec<u8> = std::iter::once(b'K').chain(b"XZ".iter().copied().cycle()).take(t).collect();
        let room = 2 * t - 1;
        let (answer, _, alternate) = lent(&word, room, room, None);
        assert_eq!((answer.number, answer.alternate, answer.visits), (0, room, t));
        assert!(!alternate.contains(&HELD));
    }
    assert_eq!(CODE_ROOM, 2 * WORD_LIMIT - 1);
}

#[test]
fn bytes_behind_a_code_keep_what_they_held() {
    let (answer, primary, alternate) = lent(b"Saj", 9, 7, None);
    assert_eq!((answer.primary, answer.alternate), (2, 2));
    assert_eq!(primary, [b"SJ".as_slice(), &[HELD; 7]].concat());
    assert_eq!(alternate, [b"S ".as_slice(), &[HELD; 5]].concat());
}

#[test]
fn a_refusal_changes_nothing() {
    let long = [b'b'; WORD_LIMIT + 1];
    let cases: [(&[u8], usize, usize, u64, usize); 4] =
        [(&long, 9, 9, 1, 0), (b"Aa\xc3\xa9", 9, 9, 2, 2), (b"Weser", 8, 9, 3, 0), (b"Weser", 9, 8, 4, 0)];
    for (word, p, a, number, place) in cases {
        let (answer, primary, alternate) = lent(word, p, a, None);
        assert_eq!(answer, Answer { number, place, primary: 0, alternate: 0, visits: 0 });
        assert_eq!((primary, alternate), (vec![HELD; p], vec![HELD; a]));
    }
}

#[test]
fn an_unknown_edition_is_told_before_all_else() {
    let long = [0xff; WORD_LIMIT + 1];
    let cases: [(&[u8], usize, usize); 6] =
        [(b"Van Chi", 13, 13), (&long, 0, 0), (&long[..9], 9, 9), (b"Weser", 8, 9), (b"Weser", 9, 8), (b"", 0, 0)];
    for edition in UNKNOWN_EDITIONS.into_iter().chain([u64::MAX - 1]) {
        for (word, p, a) in cases {
            for limit in [None, Some(0), Some(4), Some(u64::MAX)] {
                let refused = Answer { number: 7, place: 0, primary: 0, alternate: 0, visits: 0 };
                assert_eq!(lent_in(edition, word, p, a, limit), (refused, vec![HELD; p], vec![HELD; a]), "{edition}");
                assert_eq!(refused.refusal(), Some(Refusal::UnknownEdition));
            }
        }
        assert_eq!(Edition::try_from(edition), Err(Refusal::UnknownEdition));
    }
    assert_eq!([1, 2].map(Edition::try_from), [Ok(Edition::One), Ok(Edition::Two)]);
    assert_eq!([Edition::One, Edition::Two].map(Edition::number), [1, 2]);
}

#[test]
fn the_editions_refuse_alike() {
    for edition in [Edition::One, Edition::Two] {
        let encoder = DoubleMetaphone::default().in_edition(edition);
        assert_eq!(encoder.encode(vec![0xff; WORD_LIMIT + 1]), Err(Refusal::TooLong));
        assert_eq!(encoder.encode("Van Ch\u{e7}"), Err(Refusal::NotAscii { place: 6 }));
        assert_eq!(encoder.encode_alternate("\u{e7}"), Err(Refusal::NotAscii { place: 0 }));
    }
}

#[test]
fn equality_says_which_word_is_refused() {
    let long = [b'b'; WORD_LIMIT + 1];
    let refused = |which, refusal| Err(WordRefusal { which, refusal });
    let asked = |first: &[u8], second: &[u8]| ask_equal(first, second, Some(4), false).result();
    assert_eq!(asked(&long, b"\x80"), refused(Which::First, Refusal::TooLong));
    assert_eq!(asked(b"a\x80", &long), refused(Which::First, Refusal::NotAscii { place: 1 }));
    assert_eq!(asked(b"a", &long), refused(Which::Second, Refusal::TooLong));
    assert_eq!(asked(b"a", b"ab\xff"), refused(Which::Second, Refusal::NotAscii { place: 2 }));
}

#[test]
fn refusals_read_well() {
    assert_eq!(Refusal::TooLong.to_string(), "the word is over 1024 bytes");
    assert_eq!(Refusal::UnknownEdition.to_string(), "the edition is not known");
    let refused = WordRefusal { which: Which::Second, refusal: Refusal::NotAscii { place: 7 } };
    assert_eq!(refused.to_string(), "second word: the byte at place 7 is not ASCII");
}
