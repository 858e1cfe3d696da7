use super::{changed, root};
use crate::read::read;
use crate::table::{Cond, Spot, Window};
use crate::visits::visits;
use crate::{files, made, Table};
use words::{EXAMPLES, FIRST_TOLD};

/// The line of a text in a file of crates/rules/specs.
fn line_of(file: &str, text: &str) -> usize {
    let whole = files(&root())(&format!("crates/rules/specs/{file}")).unwrap_or_else(|fault| panic!("{fault}"));
    let before = whole.split_once(text).expect(text).0;
    1 + before.matches('\n').count()
}

fn table() -> Table {
    read(&files(&root())).unwrap_or_else(|fault| panic!("{fault}"))
}

/// The rows and how many cases each has, counted by hand.
#[test]
fn the_table_has_119_cases_in_its_order() {
    let table = table();
    assert_eq!(table.count(), 119);
    let counts: Vec<(&str, usize)> = table.rows.iter().map(|row| (row.name(), row.cases.len())).collect();
    #[rustfmt::skip]
    assert_eq!(counts, [
        ("A", 2), ("B", 2), ("C", 18), ("D", 4), ("F", 2), ("G", 17), ("H", 2), ("J", 12), ("K", 2), ("L", 3), ("M", 2), ("N", 2),
        ("P", 3), ("Q", 2), ("R", 4), ("S", 18), ("T", 5), ("V", 2), ("W", 6), ("X", 5), ("Z", 5), ("rest", 1),
    ]);
    assert_eq!(table.rows[0].keys, "AEIOUY");
}

fn window(spot: Spot, texts: &[&str]) -> Cond {
    Cond::Window(Window { spot, width: texts[0].len(), texts: texts.iter().map(|text| text.to_string()).collect() })
}

fn both(first: Cond, second: Cond) -> Cond {
    Cond::And(Box::new(first), Box::new(second))
}

fn either(first: Cond, second: Cond) -> Cond {
    Cond::Or(Box::new(first), Box::new(second))
}

/// Conditions written out by hand: names and their parameters stand for what they are, `&` binds before `or`, `non` before both.
#[test]
fn conditions_are_read_as_they_bind() {
    let table = table();
    let case = |letter: u8, number: usize| &table.row(letter).cases[number - 1];
    assert_eq!(case(b'B', 1).when, Cond::Byte(Spot::Ahead(1), 'B'));
    assert_eq!((case(b'B', 1).primary.as_str(), case(b'Q', 2).alternate.as_str()), ("P", "K"));
    let sz = window(Spot::Ahead(1), &["Z"]);
    let smith = either(both(Cond::Place(0), window(Spot::Ahead(1), &["M", "N", "L", "W"])), sz.clone());
    assert_eq!(case(b'S', 8).when, smith);
    assert_eq!(case(b'S', 7).when, both(smith, sz));
    let bacher = window(Spot::Back(2), &["BACHER", "MACHER"]);
    let Cond::Or(chia, ach) = &case(b'C', 1).when else { panic!("C1 is no `or`") };
    assert_eq!(**chia, window(Spot::Ahead(0), &["CHIA"]));
    let neither = Cond::Non(Box::new(either(Cond::Byte(Spot::Ahead(2), 'I'), Cond::Byte(Spot::Ahead(2), 'E'))));
    assert!(matches!(&**ach, Cond::And(_, last) if **last == either(neither, bacher)));
    let not_second = Cond::Non(Box::new(Cond::Edition2));
    let wide = Cond::Window(Window { spot: Spot::Front(0), width: 4, texts: vec!["VAN".to_string(), "VON".to_string()] });
    assert!(format!("{:?}", case(b'C', 4).when).contains(&format!("{:?}", both(not_second, wide))));
    let line = line_of("CasesDL.antt", "case (left 0) \"J\"");
    assert_eq!(case(b'J', 8).at, format!("crates/rules/specs/CasesDL.antt:{line}"));
}

/// The examples of the request's reading: which text is told.
#[test]
fn the_texts_that_are_told() {
    let table = table();
    for &(word, place, row, number, text) in FIRST_TOLD {
        for second in [false, true] {
            let visits = visits(&table, word, second);
            let visit = visits.iter().find(|visit| visit.place == place).expect(word);
            assert_eq!((visit.row.name(), visit.number, visit.text), (row, number, text), "{word}");
        }
    }
}

#[test]
fn the_editions_differ_behind_van_and_von() {
    let table = table();
    let case = |word: &str, second| visits(&table, word, second).iter().find(|visit| visit.letter == 'C').unwrap().number;
    assert_eq!((case("Van Chi", false), case("Van Chi", true)), (6, 4));
    assert_eq!((case("Vanchi", false), case("Vanchi", true)), (6, 6));
}

/// What is not known is refused, by its file and line, and nothing is guessed.
#[test]
fn what_is_not_known_is_refused() {
    #[rustfmt::skip]
    let faults = [
        // names
        ("CasesC.antt", "case CH \"X\"", "case CHE \"X\"", "`CHE` is not known here"),
        ("CasesC.antt", "case caesar", "case cases_c", "`cases_c` is not known here"),
        ("CasesG.antt", "Gh = next \"H\"", "Gh = soon \"H\"", "`soon` is not known here"),
        ("CasesG.antt", "Gh = next \"H\"", "Gh = GN", "`GN` is not known here"),
        ("CasesG.antt", "Gh = next \"H\"", "Gh = Gh", "`Gh` is not known here"),
        ("CasesG.antt", "Gh = next \"H\"", "Gh = next H", "`H` where a text should stand"),
        ("CasesG.antt", "Gh = next \"H\"", "Gh = next \"H\" xor slavo", "`xor` where the end should stand"),
        ("CasesG.antt", "Gh = next \"H\"", "Gh = next \"H\" &", "the end where a word should stand"),
        ("Plain.antt", "cases_b = swallows", "cases_b = swallow", "`swallow` is not known here"),
        ("Plain.antt", "∷ case always sound", "∷ swallows letter sound", "`swallows` where a case should stand"),
        // spots, numbers and texts
        ("CasesMZ.antt", "window (back 4) 2", "window (behind 4) 2", "`behind` is no spot that is known here"),
        ("CasesMZ.antt", "window (back 4) 2", "window back 4 2", "`back` where `(` should stand"),
        ("CasesMZ.antt", "window (back 4) 2", "window (back 4) two", "`two` where a number below 100 should stand"),
        ("CasesMZ.antt", "rogier = past 3", "rogier = past 300", "`300` where a number below 100 should stand"),
        ("CasesMZ.antt", "\"ME\" ∷ \"MA\" ∷ []", "\"ME\" ∷ \"MA\"", "`)` where `∷` should stand"),
        ("CasesMZ.antt", "(\"ME\" ∷ \"MA\" ∷ []))", "(\"ME ∷ MA ∷ []))", "a text without its closing quote"),
        ("CasesMZ.antt", "\"ME\" ∷ \"MA\"", "\"M\\E\" ∷ \"MA\"", "a backslash in a text is not known here"),
        ("CasesMZ.antt", "case TION \"X\" \"X\" 2", "case TION \"X\" \"x\" 2", "\"x\" is not in capitals"),
        ("CasesDL.antt", "byte (ahead 4) \" \"", "byte (ahead 4) \"  \"", "\"  \" is not one letter"),
        // parentheses
        ("CasesS.antt", "non (byte (front 3) \"W\")", "non byte (front 3) \"W\"",
            "a condition of more than one word stands without its parentheses"),
        ("CasesS.antt", "case (SIO & slavo)", "case SIO & slavo", "`&` where a text should stand"),
        ("CasesS.antt", "case (SIO & slavo)", "case (SIO & slavo", "`\"S\"` where `)` should stand"),
        // what a file may hold
        ("CasesS.antt", "abbrev pub SH : Cond", "abbrev pub SH : Spot → Cond", "the type `Spot → Cond` is not known here"),
        ("CasesS.antt", "abbrev pub SH : Cond", "theorem SH : Cond", "`theorem` is not known here"),
        ("CasesS.antt", "SH = window (ahead 0)", "HS = window (ahead 0)", "`HS` where `SH` should stand"),
        ("CasesS.antt", "SH = window (ahead 0) 2 (\"SH\" ∷ [])", "SH =", "`SH` has no equation"),
        ("CasesS.antt", "abbrev pub SH : Cond\nSH =", "abbrev pub sugar : Cond\nsugar =", "`sugar` is defined twice"),
        ("CasesS.antt", "abbrev pub SH : Cond\nSH =", "abbrev pub non : Cond\nnon =", "`non` is defined twice"),
        ("CasesS.antt", "-- Schlesinger's rule", "    stray", "`stray` where the end should stand"),
        ("CasesS.antt", "-- The cases of S,", "    stray --", "an indented line that belongs to nothing"),
        ("Table.antt", "row \"C\" cases_c", "row \"C\" cases_cc", "`cases_cc` is defined in no file that is taken from"),
        ("Table.antt", "row \"C\" cases_c", "column \"C\" cases_c", "`column` where `row` should stand"),
    ];
    for (file, old, new, wanted) in faults {
        let fault = read(&changed(file, old, new)).expect_err(new).to_string();
        assert_eq!(fault, format!("crates/rules/specs/{file}:{}: {wanted}", line_of(file, old)), "{new}");
    }
}

/// A condition is only said as the definition means it, so a change of its meaning is refused too.
#[test]
fn another_meaning_is_refused() {
    let changes = [
        ("Cond.antt", "infixl 30 ◌or◌", "infixl 50 ◌or◌"),
        ("crates/terms/specs/Editions.antt", "is_second E2 = true", "is_second E2 = true\nis_second E3 = true"),
        ("Cond.antt", "holds (past k) u p m = ltb k p", "holds (past k) u p m = leb k p"),
        ("Cond.antt", "  slavo : Cond", "  slavo : Cond\n  loud : Cond"),
        ("Case.antt", "(gives c) (first cs u p m)", "(first cs u p m) (gives c)"),
        ("Told.antt", "text_of (non c) u p = 0", "text_of (non c) u p = text_of c u p"),
        ("crates/outcome/specs/Answers.antt", "or_else a b = cond (eqb a 0) b a", "or_else a b = cond (eqb b 0) a b"),
        ("Table.antt", "cases_in [] b = cases_rest", "cases_in [] b = cases_vowel"),
        ("crates/byte/specs/Vowel.antt", "(bytes \"AEIOUY\")", "(bytes \"AEIOU\")"),
        ("crates/word/specs/Start.antt", "\"PN\" ∷ ", ""),
        ("crates/word/specs/Mark.antt", "slavo_germanic u = has_one mark_texts u", "slavo_germanic u = false"),
    ];
    for (file, old, new) in changes {
        let fault = read(&changed(file, old, new)).expect_err(new).to_string();
        assert!(fault.contains(file) && fault.contains(": not as host/rules/src/read/known.rs has it: "), "{fault}");
    }
    let fault = read(&changed("crates/terms/specs/Editions.antt", "is_second E1 = false", ""))
        .expect_err("an equation is gone")
        .to_string();
    let gone = "host/rules/src/read/known.rs rests on this, which is gone: is_second E1 = false";
    assert_eq!(fault, format!("crates/terms/specs/Editions.antt: {gone}"));
}

/// A condition that can be read and not said is refused by the place of its case; so is a table of another shape.
#[test]
fn what_cannot_be_said_is_refused() {
    let case = format!("crates/rules/specs/CasesMZ.antt:{}: ", line_of("CasesMZ.antt", "case (rogier"));
    let table = "crates/rules/specs/Table.antt: ".to_string();
    let faults = [
        ("CasesMZ.antt", "rogier = past 3", "rogier = past 11", format!("{case}there is no word for the letter number 13")),
        (
            "CasesMZ.antt",
            "rogier = past 3",
            "rogier = non (left 3)",
            format!("{case}there are no words for a `non` of Left(3)"),
        ),
        ("CasesMZ.antt", "rogier = past 3", "rogier = below 0", format!("{case}there are no words for a place below 0")),
        (
            "CasesMZ.antt",
            "rogier = past 3",
            "rogier = vowel (rear 1)",
            format!("{case}there are no words for a letter at Rear(1)"),
        ),
        (
            "CasesMZ.antt",
            "window (back 2) 2 (\"IE\"",
            "window (back 2) 3 (\"IE\"",
            format!("{case}there are no words for a window of width 3 and texts of other lengths"),
        ),
        (
            "CasesMZ.antt",
            "window (back 2) 2 (\"IE\"",
            "window (front 2) 2 (\"IE\"",
            format!("{case}there are no words for a window of width 2 at Front(2)"),
        ),
        ("Table.antt", "∷ row \"D\" cases_d ", "", format!("{table}the rows do not have each letter from A to Z once")),
        ("Table.antt", "row \"D\"", "row \"DC\"", format!("{table}the rows do not have each letter from A to Z once")),
        (
            "CasesMZ.antt",
            "case TION",
            "case always \"\" \"\" 0 ∷ case TION",
            format!("{table}row T does not end at its first case `always`"),
        ),
        ("CasesMZ.antt", "∷ case Th \"0\" \"T\" 1\n", "\n", format!("{table}the table has 118 cases, and not 119")),
    ];
    for (file, old, new, wanted) in faults {
        let fault = made(&changed(file, old, new), EXAMPLES).err().expect(new).to_string();
        assert_eq!(fault, wanted, "{new}");
    }
}
