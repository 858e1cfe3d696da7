//! The comparison finds no difference in the port, and finds each of these faults on its smallest input.
use crate::jobs::Plan;
use crate::port::{Library, Port};
use crate::run::{Outcome, Run};
use crate::{grouped, options};
use oracle::{Oracle, NOT_AT_HAND};
use simmerquilt::{Answer, Told, Verdict, CODE_ROOM, ROW};

fn outcome(port: &impl Port) -> Option<Outcome> {
    let Some(oracle) = Oracle::at_hand() else {
        eprintln!("NOT RUN, nothing was compared: {NOT_AT_HAND}");
        return None;
    };
    Some(Run { oracle, port, plan: Plan::taste(), seed: 1, until: None }.go(2))
}

#[test]
fn the_library_agrees_with_the_rust() {
    let Some(outcome) = outcome(&Library) else { return };
    assert_eq!(outcome.difference, None);
    assert!(outcome.numbers.iter().all(|count| *count > 0));
    // The editions are told apart often enough that a port without edition 2 is found.
    assert!(outcome.apart > 5_000, "{}", outcome.apart);
    assert!(outcome.rows > 1_000_000, "{}", outcome.rows);
}

/// The library with something done to its answers afterwards.
struct Faulty<E, Q>(E, Q);

type Buffers<'a> = (&'a mut [u8], &'a mut [u8]);

impl<E, Q> Port for Faulty<E, Q>
where
    E: Fn(&[u8], Buffers, Option<u64>, Answer) -> Answer + Sync,
    Q: Fn(&[u8], &[u8], Verdict) -> Verdict + Sync,
{
    fn encode(&self, word: &[u8], primary: &mut [u8], alternate: &mut [u8], limit: Option<u64>) -> Answer {
        let answer = Library.encode(word, primary, alternate, limit);
        self.0(word, (primary, alternate), limit, answer)
    }

    fn equal(&self, first: &[u8], second: &[u8], limit: Option<u64>, alternate: bool) -> Verdict {
        self.1(first, second, Library.equal(first, second, limit, alternate))
    }
}

/// The library but for its answers by an edition.
struct FaultyIn<F>(F);

impl<F> Port for FaultyIn<F>
where
    F: Fn(u64, &[u8], Buffers, Option<u64>) -> Answer + Sync,
{
    fn encode_in(&self, edition: u64, word: &[u8], primary: &mut [u8], alternate: &mut [u8], limit: Option<u64>) -> Answer {
        self.0(edition, word, (primary, alternate), limit)
    }
}

/// Asserts that the fault is found and that the report opens with this.
fn found(port: impl Port, opening: &str) {
    let Some(outcome) = outcome(&port) else { return };
    let (_, report) = outcome.difference.expect("the fault is found");
    assert!(report.starts_with(opening), "{report}");
}

fn encoding(fault: impl Fn(&[u8], Buffers, Option<u64>, Answer) -> Answer + Sync, opening: &str) {
    found(Faulty(fault, |_: &[u8], _: &[u8], verdict| verdict), opening);
}

#[test]
fn finds_a_dropped_space_of_a_last_j() {
    encoding(
        |_, (_, alternate), _, mut answer| {
            if alternate[..answer.alternate].ends_with(b" ") {
                answer.alternate -= 1;
            }
            answer
        },
        "encode b\"AJ\"",
    );
}

#[test]
fn finds_a_byte_written_behind_the_code() {
    encoding(
        |_, (primary, _), _, answer| {
            if answer.primary == 2 && primary.len() > 2 {
                primary[2] = 0;
            }
            answer
        },
        "encode b\"",
    );
}

#[test]
fn finds_a_buffer_changed_by_a_refusal() {
    encoding(
        |_, (primary, _), _, answer| {
            if answer.number == 4 {
                primary[0] = b'A';
            }
            answer
        },
        "encode b\"A\", limit None, buffers of 1 and 0 bytes",
    );
}

#[test]
fn finds_a_wrong_place() {
    encoding(
        |_, _, _, mut answer| {
            answer.place += usize::from(answer.place > 0);
            answer
        },
        "encode b\"",
    );
}

#[test]
fn finds_visits_made_after_both_codes_are_full() {
    encoding(
        |word, _, _, mut answer| {
            let (mut primary, mut alternate) = ([0; CODE_ROOM], [0; CODE_ROOM]);
            if answer.number == 0 {
                answer.visits = Library.encode(word, &mut primary, &mut alternate, None).visits;
            }
            answer
        },
        "encode b\"A\", limit Some(0)",
    );
}

#[test]
fn finds_a_walk_that_stops_at_the_first_full_code() {
    encoding(
        |_, _, limit, mut answer| {
            let full = |length: usize| limit == Some(length as u64);
            answer.visits -= usize::from(full(answer.primary) && !full(answer.alternate));
            answer
        },
        "encode b\"",
    );
}

#[test]
fn finds_primary_and_alternate_refused_in_the_wrong_order() {
    encoding(
        |_, (primary, alternate), _, mut answer| {
            if answer.number == 3 && alternate.len() == primary.len() {
                answer.number = 4;
            }
            answer
        },
        "encode b\"",
    );
}

#[test]
fn finds_a_second_word_refused_before_the_first() {
    let fault = |first: &[u8], second: &[u8], mut verdict: Verdict| {
        if !first.is_ascii() && !second.is_ascii() {
            verdict.word = 2;
        }
        verdict
    };
    found(Faulty(|_: &[u8], _: Buffers, _, answer| answer, fault), "equal b\"\\x");
}

#[test]
fn finds_unequal_empty_codes() {
    let fault = |first: &[u8], second: &[u8], mut verdict: Verdict| {
        if first.is_empty() && second.is_empty() {
            verdict.equal = 0;
        }
        verdict
    };
    found(Faulty(|_: &[u8], _: Buffers, _, answer| answer, fault), "equal b\"\" and b\"\"");
}

/// Asserts that the fault is found by an edition, and that the report opens with this.
fn by_edition(fault: impl Fn(u64, &[u8], Buffers, Option<u64>) -> Answer + Sync, opening: &str, edition: u64) {
    let Some(outcome) = outcome(&FaultyIn(fault)) else { return };
    let (_, report) = outcome.difference.expect("the fault is found");
    assert!(report.starts_with(opening), "{report}");
    assert!(report.ends_with(&format!(" by edition {edition}")), "{report}");
}

/// The library's answer by this edition, whatever edition was asked for.
fn answered(edition: u64, word: &[u8], (primary, alternate): Buffers, limit: Option<u64>) -> Answer {
    Library.encode_in(edition, word, primary, alternate, limit)
}

#[test]
fn finds_edition_2_answered_as_1() {
    let fault = |edition: u64, word: &[u8], buffers: Buffers, limit| {
        answered(if edition == 2 { 1 } else { edition }, word, buffers, limit)
    };
    by_edition(fault, "encode b\"van ch\"", 2);
}

#[test]
fn finds_edition_1_answered_as_2() {
    let fault = |edition: u64, word: &[u8], buffers: Buffers, limit| {
        answered(if edition == 1 { 2 } else { edition }, word, buffers, limit)
    };
    by_edition(fault, "encode b\"van ch\"", 1);
}

#[test]
fn finds_edition_3_accepted() {
    let fault = |edition: u64, word: &[u8], buffers: Buffers, limit| {
        answered(if edition == 3 { 2 } else { edition }, word, buffers, limit)
    };
    by_edition(fault, "encode b\"\"", 3);
}

#[test]
fn finds_an_edition_read_in_32_bits() {
    let fault = |edition: u64, word: &[u8], buffers: Buffers, limit| answered(edition as u32 as u64, word, buffers, limit);
    by_edition(fault, "encode b\"\"", (1 << 32) + 1);
}

/// Gives 7 behind this refusal of the word or the buffers.
fn seven_behind(number: u64, edition: u64, word: &[u8], (primary, alternate): Buffers, limit: Option<u64>) -> Answer {
    let (mut other, mut another) = (vec![0; primary.len()], vec![0; alternate.len()]);
    let first = Library.encode(word, &mut other, &mut another, limit);
    if first.number == number {
        return first;
    }
    answered(edition, word, (primary, alternate), limit)
}

#[test]
fn finds_7_given_after_each_other_refusal() {
    for number in 1..=4 {
        let fault = |edition: u64, word: &[u8], buffers: Buffers, limit| seven_behind(number, edition, word, buffers, limit);
        let Some(outcome) = outcome(&FaultyIn(fault)) else { return };
        let (_, report) = outcome.difference.expect("the fault is found");
        assert!(report.contains("expected Answer { number: 7, "), "{report}");
        assert!(report.contains(&format!("got      Answer {{ number: {number}, ")), "{report}");
    }
}

#[test]
fn finds_a_buffer_changed_by_7() {
    let fault = |edition: u64, word: &[u8], (primary, alternate): Buffers, limit| {
        let answer = answered(edition, word, (primary, alternate), limit);
        if answer.number == 7 && !alternate.is_empty() {
            alternate[0] = 0;
        }
        answer
    };
    by_edition(fault, "encode b\"", 3);
}

#[test]
fn finds_a_visit_too_many_by_edition_2() {
    let fault = |edition: u64, word: &[u8], buffers: Buffers, limit| {
        let mut answer = answered(edition, word, buffers, limit);
        answer.visits += usize::from(edition == 2 && word.len() > 2 && answer.visits > 2);
        answer
    };
    by_edition(fault, "encode b\"", 2);
}

/// The library but for the equality question, which it answers by edition 2.
struct EqualBy2;

impl Port for EqualBy2 {
    fn equal(&self, first: &[u8], second: &[u8], limit: Option<u64>, alternate: bool) -> Verdict {
        let mut verdict = Library.equal(first, second, limit, alternate);
        if verdict.number == 0 {
            let [first, second] = [first, second].map(|word| {
                let (mut codes, mut others) = ([0; CODE_ROOM], [0; CODE_ROOM]);
                let answer = Library.encode_in(2, word, &mut codes, &mut others, limit);
                if alternate {
                    others[..answer.alternate].to_vec()
                } else {
                    codes[..answer.primary].to_vec()
                }
            });
            verdict.equal = u64::from(first == second);
        }
        verdict
    }
}

#[test]
fn finds_equality_asked_by_edition_2() {
    found(EqualBy2, "equal b\"");
}

/// The library with something done to its listings afterwards: to the answer and to the room.
struct FaultyRows<F>(F);

impl<F> Port for FaultyRows<F>
where
    F: Fn(&[u8], Option<u64>, &mut [u32], Told) -> Told + Sync,
{
    fn explain(&self, edition: u64, word: &[u8], limit: Option<u64>, rows: &mut [u32]) -> Told {
        let told = Library.explain(edition, word, limit, rows);
        self.0(word, limit, rows, told)
    }
}

/// Asserts that the fault is found in a listing, and that the report opens with this.
fn listing(fault: impl Fn(&[u8], Option<u64>, &mut [u32], Told) -> Told + Sync, opening: &str) {
    let Some(outcome) = outcome(&FaultyRows(fault)) else { return };
    let (_, report) = outcome.difference.expect("the fault is found");
    assert!(report.starts_with(opening), "{report}");
    assert!(report.contains(" in the listing by edition "), "{report}");
}

/// Does this to each row that was written.
fn each_row(rows: &mut [u32], told: Told, change: impl Fn(&mut [u32])) -> Told {
    rows.chunks_exact_mut(ROW).take(told.rows).for_each(change);
    told
}

#[test]
fn finds_a_text_that_is_not_told() {
    listing(|_, _, rows, told| each_row(rows, told, |row| row[3] = 0), "encode b\"CC\"");
}

#[test]
fn finds_a_case_one_off() {
    listing(|_, _, rows, told| each_row(rows, told, |row| row[2] += u32::from(row[1] == u32::from(b'Z'))), "encode b\"Z\"");
}

#[test]
fn finds_a_clipped_gain() {
    let fault = |_: &[u8], limit: Option<u64>, rows: &mut [u32], told: Told| {
        each_row(rows, told, |row| row[4] = if limit == Some(1) { row[4] % 256 } else { row[4] })
    };
    listing(fault, "encode b\"DG\", limit Some(1)");
}

#[test]
fn finds_a_number_written_behind_the_rows() {
    let fault = |_: &[u8], _, rows: &mut [u32], told: Told| {
        if let Some(number) = rows.get_mut(ROW * told.rows) {
            *number = 0;
        }
        told
    };
    listing(fault, "encode b\"\"");
}

#[test]
fn finds_9_given_before_2() {
    let fault = |word: &[u8], _, rows: &mut [u32], told: Told| match told.number {
        2 if rows.len() / ROW < word.len() => Told { number: 9, place: 0, rows: 0 },
        _ => told,
    };
    listing(fault, "encode b\"\\x");
}

#[test]
fn numbers_are_grouped() {
    assert_eq!([0, 999, 1000, 1_234_567].map(grouped), ["0", "999", "1,000", "1,234,567"]);
}

#[test]
fn options_are_read() {
    let read = |line: &str| options(line.split_whitespace().map(String::from)).map(|o| (o.seconds, o.seed));
    assert_eq!(read(""), Some((Some(20), 1)));
    assert_eq!(read("--full --seed 7"), Some((None, 7)));
    assert_eq!(read("--seconds 5"), Some((Some(5), 1)));
    assert_eq!(read("--seconds"), None);
    assert_eq!(read("--fast"), None);
}
