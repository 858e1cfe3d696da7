//! The table is read as it stands.
use crate::explain::table::Table;

const COUNTS: &str =
    "rest 1, A 2, B 2, C 18, D 4, F 2, G 17, H 2, J 12, K 2, L 3, M 2, N 2, P 3, Q 2, R 4, S 18, T 5, V 2, W 6, X 5, Z 5";

#[test]
fn there_are_119_cases() {
    for edition in [1, 2] {
        let letters = &Table::of(edition).expect("there is such an edition").letters;
        let counts: Vec<_> = letters.iter().map(|letter| format!("{} {}", letter.key, letter.cases.len())).collect();
        assert_eq!(counts.join(", "), COUNTS);
        assert_eq!(letters.iter().map(|letter| letter.cases.len()).sum::<usize>(), 119);
    }
}
