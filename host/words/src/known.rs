/// Document 01's names with known keys: a word, a limit, both codes by edition 1 and the visits.
pub const KNOWN: &[(&str, Option<usize>, &str, &str, usize)] = &[
    ("", None, "", "", 0),
    ("jumped", None, "JMPT", "AMPT", 6),
    ("jumped", Some(1), "J", "A", 1),
    ("jumped", Some(0), "", "", 0),
    ("GN", None, "N", "N", 1),
    ("XX", None, "SKS", "SKS", 2),
    ("KXZ", None, "KKSS", "KKSTS", 3),
    ("KXZ", Some(2), "KK", "KK", 2),
    ("Mac Gregor", None, "MKRKR", "MKRKR", 8),
    ("Mac Gregor", Some(4), "MKRK", "MKRK", 6),
    ("Rogier", Some(3), "RJ", "RJR", 5),
    ("Villa", None, "FL", "F", 4),
    ("artois", None, "ART", "ARTS", 6),
    ("Van Chi", None, "FNX", "FNK", 6),
    // The errors that read well: a full code alone does not end the walk, two full codes do.
    ("Villa", Some(2), "FL", "F", 4),
    ("artois", Some(3), "ART", "ART", 3),
    ("Rogier", Some(2), "RJ", "RJ", 3),
    // A last J adds a space to the alternate code.
    ("Saj", None, "SJ", "S ", 3),
];
