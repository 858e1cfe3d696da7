use super::{changed, root};
use crate::{check, files, made};
use words::EXAMPLES;

#[test]
fn the_page_and_the_data_are_fresh() {
    let made = made(&files(&root()), EXAMPLES).unwrap_or_else(|fault| panic!("{fault}"));
    if let Err(fault) = check(&root(), &made) {
        panic!("{fault}");
    }
}

/// What the check says of the files that are there, where the definition or an example is another.
fn said(file: &str, old: &str, new: &str, examples: &[(&str, usize, &str)]) -> String {
    let made = made(&changed(file, old, new), examples).unwrap_or_else(|fault| panic!("{new}: {fault}"));
    check(&root(), &made).expect_err(new).to_string()
}

#[test]
fn a_changed_definition_makes_the_page_stale() {
    let changes = [
        ("CasesC.antt", "case hard_c \"K\" \"K\" 1", "case hard_c \"K\" \"X\" 1"),
        ("CasesC.antt", "case hard_c \"K\" \"K\" 1", "case hard_c \"K\" \"K\" 2"),
        ("CasesC.antt", "\"CK\" ∷ \"CG\" ∷ \"CQ\" ∷ []", "\"CK\" ∷ \"CQ\" ∷ \"CG\" ∷ []"),
        ("CasesC.antt", "non (window (ahead 2) 2 (\"HU\" ∷ []))", "non (window (ahead 2) 2 (\"HU\" ∷ \"HV\" ∷ []))"),
        ("CasesG.antt", "window (ahead 1) 2 (\"LI\" ∷ []) & non slavo", "non slavo & window (ahead 1) 2 (\"LI\" ∷ [])"),
        ("CasesG.antt", "past 3 & window (back 4)", "past 4 & window (back 4)"),
        ("CasesDL.antt", "case (left 0) \"J\" \" \" 0", "case (left 0) \"J\" \"\" 0"),
        ("Plain.antt", "swallows \"Q\" \"K\"", "swallows \"Q\" \"KK\""),
        ("Table.antt", "row \"K\" cases_k ∷ row \"L\" cases_l", "row \"L\" cases_l ∷ row \"K\" cases_k"),
    ];
    for (file, old, new) in changes {
        let said = said(file, old, new, EXAMPLES);
        assert_eq!(
            said,
            "docs/RULES.md is stale: it is not what crates/rules/specs gives; `cargo run --offline -p rules` in host/ makes it anew"
        );
    }
}

#[test]
fn another_example_makes_the_page_stale() {
    let mut examples = EXAMPLES.to_vec();
    let own = examples.iter_mut().find(|(row, number, _)| (*row, *number) == ("C", 3)).unwrap();
    own.2 = "Raphael and Michael";
    assert!(said("Plain.antt", "-- a letter of one sound", "", &examples).starts_with("docs/RULES.md is stale"));
}

#[test]
fn the_data_are_checked_too() {
    let mut made = made(&files(&root()), EXAMPLES).unwrap_or_else(|fault| panic!("{fault}"));
    made[1].text.push('\n');
    let said = check(&root(), &made).expect_err("the data is another").to_string();
    assert!(said.starts_with("host/simmerquilt/src/cases.rs is stale"), "{said}");
}

#[test]
fn each_case_needs_its_example() {
    let fault = |examples: &[(&str, usize, &str)]| made(&files(&root()), examples).err().expect("a fault").to_string();
    let without = |gone: (&str, usize)| -> Vec<(&str, usize, &str)> {
        EXAMPLES.iter().copied().filter(|(row, number, _)| (*row, *number) != gone).collect()
    };
    let with = |row, number, word| [without((row, number)), vec![(row, number, word)]].concat();
    let place = "host/words/src/examples.rs: ";
    assert_eq!(fault(&without(("L", 1))), format!("{place}case 1 of L has no example"));
    assert_eq!(fault(&without(("rest", 1))), format!("{place}case 1 of rest has no example"));
    assert_eq!(fault(&with("L", 1, "Elbe")), format!("{place}case 1 of L has an example that does not take it: Elbe"));
    assert_eq!(fault(&with("S", 15, "Reuss")), format!("{place}case 15 of S has an example, and is one that no word takes"));
    assert_eq!(fault(&with("Z", 6, "Zambezi")), format!("{place}there is no case 6 of Z"));
    assert_eq!(fault(&with("E", 1, "Elbe")), format!("{place}there is no case 1 of E"));
    assert_eq!(fault(&[EXAMPLES, &[("B", 2, "Bober")]].concat()), format!("{place}case 2 of B has two examples"));
    let padded = format!("{place}case 2 of B has an example that is not a trimmed ASCII word:  Bober");
    assert_eq!(fault(&with("B", 2, " Bober")), padded);
}

/// Every row of the page has as many cells as its table has columns, and the page names each case once, in order.
#[test]
fn the_tables_are_whole() {
    let [page, _] = made(&files(&root()), EXAMPLES).unwrap_or_else(|fault| panic!("{fault}"));
    let tables = page.text.split("\n## ").skip(2);
    let mut count = 0;
    for table in tables {
        let rows: Vec<&str> = table.lines().filter(|line| line.starts_with('|')).collect();
        for (index, row) in rows.iter().enumerate() {
            let cells: Vec<&str> = row.split(" | ").collect();
            assert_eq!(cells.len(), if index == 1 { 1 } else { 6 }, "{row}");
            if index > 1 {
                assert_eq!(cells[0], format!("| {}", index - 1), "{row}");
                count += 1;
            }
        }
    }
    assert_eq!(count, crate::CASES);
}
