//! The cases of the letter rules in words, with the window tests that tell a text. Made by host/rules from crates/rules/specs:
//! do not edit; `cargo run --offline -p rules` in host/ makes it anew.
use crate::rules::{Case, Letter, Spot, Window};

/// The rows of the table in its order; the last is that of all bytes outside A to Z.
#[rustfmt::skip]
pub(crate) const LETTERS: &[Letter] = &[
    Letter {
        keys: "AEIOUY",
        cases: &[Case { when: "this is the first letter", windows: &[] }, Case { when: "otherwise", windows: &[] }],
    },
    Letter {
        keys: "B",
        cases: &[Case { when: "the next letter is B", windows: &[] }, Case { when: "otherwise", windows: &[] }],
    },
    Letter {
        keys: "C",
        cases: &[
            Case {
                when: "CHIA¹ stands here; or this is not the first letter, and this is the third letter or later, and the \
                    letter two back is no vowel, and (this is the first letter, or one letter back: ACH), and this is the \
                    third letter or later, and (the letter two on is neither I nor E, or two letters back: BACHER¹ or \
                    MACHER²)",
                windows: &[
                    Window { spot: Spot::Ahead(0), width: 4, texts: &["CHIA"] },
                    Window { spot: Spot::Back(2), width: 6, texts: &["BACHER", "MACHER"] },
                ],
            },
            Case {
                when: "this is the first letter, and CAESAR¹ stands here",
                windows: &[Window { spot: Spot::Ahead(0), width: 6, texts: &["CAESAR"] }],
            },
            Case {
                when: "CH¹ stands here, and this is not the first letter, and CHAE¹ stands here",
                windows: &[
                    Window { spot: Spot::Ahead(0), width: 2, texts: &["CH"] },
                    Window { spot: Spot::Ahead(0), width: 4, texts: &["CHAE"] },
                ],
            },
            Case {
                when: "CH¹ stands here; and (this is the first letter, and (HARAC or HARIS comes next, or HOR, HYM, HIA or \
                    HEM comes next), and the word does not begin with CHORE), or (the edition is 2, and the word begins \
                    with VAN␣¹ or VON␣²), or (the edition is 1, and the word's first four letters are VAN or VON (never \
                    so)), or the word begins with SCH¹, or (this is the third letter or later, and two letters back: \
                    ORCHES¹, ARCHIT² or ORCHID³), or (this is the third letter or later, and two letters on: T¹ or S²), or \
                    ((this is the first letter, or one letter back: A¹, O², U³ or E⁴), and (two letters on: L¹, R², N³, \
                    M⁴, B⁵, H⁶, F⁷, V⁸, W⁹ or ␣¹⁰, or exactly one letter follows))",
                windows: &[
                    Window { spot: Spot::Ahead(0), width: 2, texts: &["CH"] },
                    Window { spot: Spot::Front(0), width: 4, texts: &["VAN ", "VON "] },
                    Window { spot: Spot::Front(0), width: 4, texts: &["VAN", "VON"] },
                    Window { spot: Spot::Front(0), width: 3, texts: &["SCH"] },
                    Window { spot: Spot::Back(2), width: 6, texts: &["ORCHES", "ARCHIT", "ORCHID"] },
                    Window { spot: Spot::Ahead(2), width: 1, texts: &["T", "S"] },
                    Window { spot: Spot::Back(1), width: 1, texts: &["A", "O", "U", "E"] },
                    Window { spot: Spot::Ahead(2), width: 1, texts: &["L", "R", "N", "M", "B", "H", "F", "V", "W", " "] },
                ],
            },
            Case {
                when: "CH¹ stands here, and this is not the first letter, and the word begins with MC¹",
                windows: &[
                    Window { spot: Spot::Ahead(0), width: 2, texts: &["CH"] },
                    Window { spot: Spot::Front(0), width: 2, texts: &["MC"] },
                ],
            },
            Case {
                when: "CH¹ stands here, and this is not the first letter",
                windows: &[Window { spot: Spot::Ahead(0), width: 2, texts: &["CH"] }],
            },
            Case { when: "CH¹ stands here", windows: &[Window { spot: Spot::Ahead(0), width: 2, texts: &["CH"] }] },
            Case {
                when: "CZ¹ stands here; and this is the first or second letter, or two letters back: not WICZ",
                windows: &[Window { spot: Spot::Ahead(0), width: 2, texts: &["CZ"] }],
            },
            Case { when: "CIA¹ comes next", windows: &[Window { spot: Spot::Ahead(1), width: 3, texts: &["CIA"] }] },
            Case {
                when: "CC¹ stands here; and not (this is the second letter, and the word's first letter is M); and two \
                    letters on: I¹, E² or H³; and two letters on: not HU; and (this is the second letter, and the letter \
                    before is A), or one letter back: UCCEE¹ or UCCES²",
                windows: &[
                    Window { spot: Spot::Ahead(0), width: 2, texts: &["CC"] },
                    Window { spot: Spot::Ahead(2), width: 1, texts: &["I", "E", "H"] },
                    Window { spot: Spot::Back(1), width: 5, texts: &["UCCEE", "UCCES"] },
                ],
            },
            Case {
                when: "CC¹ stands here, and not (this is the second letter, and the word's first letter is M), and two \
                    letters on: I¹, E² or H³, and two letters on: not HU",
                windows: &[
                    Window { spot: Spot::Ahead(0), width: 2, texts: &["CC"] },
                    Window { spot: Spot::Ahead(2), width: 1, texts: &["I", "E", "H"] },
                ],
            },
            Case {
                when: "CC¹ stands here, and not (this is the second letter, and the word's first letter is M)",
                windows: &[Window { spot: Spot::Ahead(0), width: 2, texts: &["CC"] }],
            },
            Case {
                when: "CK¹, CG² or CQ³ stands here",
                windows: &[Window { spot: Spot::Ahead(0), width: 2, texts: &["CK", "CG", "CQ"] }],
            },
            Case {
                when: "CI¹, CE² or CY³ stands here, and CIO¹, CIE² or CIA³ stands here",
                windows: &[
                    Window { spot: Spot::Ahead(0), width: 2, texts: &["CI", "CE", "CY"] },
                    Window { spot: Spot::Ahead(0), width: 3, texts: &["CIO", "CIE", "CIA"] },
                ],
            },
            Case {
                when: "CI¹, CE² or CY³ stands here",
                windows: &[Window { spot: Spot::Ahead(0), width: 2, texts: &["CI", "CE", "CY"] }],
            },
            Case {
                when: "␣C¹, ␣Q² or ␣G³ comes next",
                windows: &[Window { spot: Spot::Ahead(1), width: 2, texts: &[" C", " Q", " G"] }],
            },
            Case {
                when: "C¹, K² or Q³ comes next, and neither CE nor CI comes next",
                windows: &[Window { spot: Spot::Ahead(1), width: 1, texts: &["C", "K", "Q"] }],
            },
            Case { when: "otherwise", windows: &[] },
        ],
    },
    Letter {
        keys: "D",
        cases: &[
            Case {
                when: "DG¹ stands here, and two letters on: I¹, E² or Y³",
                windows: &[
                    Window { spot: Spot::Ahead(0), width: 2, texts: &["DG"] },
                    Window { spot: Spot::Ahead(2), width: 1, texts: &["I", "E", "Y"] },
                ],
            },
            Case { when: "DG¹ stands here", windows: &[Window { spot: Spot::Ahead(0), width: 2, texts: &["DG"] }] },
            Case {
                when: "DT¹ or DD² stands here",
                windows: &[Window { spot: Spot::Ahead(0), width: 2, texts: &["DT", "DD"] }],
            },
            Case { when: "otherwise", windows: &[] },
        ],
    },
    Letter {
        keys: "F",
        cases: &[Case { when: "the next letter is F", windows: &[] }, Case { when: "otherwise", windows: &[] }],
    },
    Letter {
        keys: "G",
        cases: &[
            Case {
                when: "the next letter is H, and this is not the first letter, and the letter before is no vowel",
                windows: &[],
            },
            Case { when: "the next letter is H, and this is the first letter, and the letter two on is I", windows: &[] },
            Case { when: "the next letter is H, and this is the first letter", windows: &[] },
            Case {
                when: "the next letter is H; and (this is the third letter or later, and two letters back: B¹, H² or D³), \
                    or (this is the fourth letter or later, and three letters back: B¹, H² or D³), or (this is the fifth \
                    letter or later, and four letters back: B¹ or H²)",
                windows: &[
                    Window { spot: Spot::Back(2), width: 1, texts: &["B", "H", "D"] },
                    Window { spot: Spot::Back(3), width: 1, texts: &["B", "H", "D"] },
                    Window { spot: Spot::Back(4), width: 1, texts: &["B", "H"] },
                ],
            },
            Case {
                when: "the next letter is H, and this is the fourth letter or later, and the letter before is U, and three \
                    letters back: C¹, G², L³, R⁴ or T⁵",
                windows: &[Window { spot: Spot::Back(3), width: 1, texts: &["C", "G", "L", "R", "T"] }],
            },
            Case {
                when: "the next letter is H, and this is not the first letter, and the letter before is not I",
                windows: &[],
            },
            Case { when: "the next letter is H", windows: &[] },
            Case {
                when: "the next letter is N, and this is the second letter, and the word's first letter is a vowel, and \
                    the word is not Slavo-Germanic (has no W, K or CZ)",
                windows: &[],
            },
            Case {
                when: "the next letter is N, and two letters on: not EY, and the next letter is not Y, and the word is not \
                    Slavo-Germanic (has no W, K or CZ)",
                windows: &[],
            },
            Case { when: "the next letter is N", windows: &[] },
            Case {
                when: "LI¹ comes next, and the word is not Slavo-Germanic (has no W, K or CZ)",
                windows: &[Window { spot: Spot::Ahead(1), width: 2, texts: &["LI"] }],
            },
            Case {
                when: "this is the first letter, and (the next letter is Y, or ES¹, EP², EB³, EL⁴, EY⁵, IB⁶, IL⁷, IN⁸, \
                    IE⁹, EI¹⁰ or ER¹¹ comes next); or (ER¹ comes next, or the next letter is Y), and the word begins with \
                    none of DANGER, RANGER, MANGER, and (this is the first letter, or one letter back: neither E nor I), \
                    and (this is the first letter, or one letter back: neither RGY nor OGY)",
                windows: &[
                    Window {
                        spot: Spot::Ahead(1),
                        width: 2,
                        texts: &["ES", "EP", "EB", "EL", "EY", "IB", "IL", "IN", "IE", "EI", "ER"],
                    },
                    Window { spot: Spot::Ahead(1), width: 2, texts: &["ER"] },
                ],
            },
            Case {
                when: "E¹, I² or Y³ comes next, or (this is not the first letter, and one letter back: AGGI¹ or OGGI²); \
                    and the word begins with VAN␣¹ or VON␣², or the word begins with SCH¹, or ET¹ comes next",
                windows: &[
                    Window { spot: Spot::Ahead(1), width: 1, texts: &["E", "I", "Y"] },
                    Window { spot: Spot::Back(1), width: 4, texts: &["AGGI", "OGGI"] },
                    Window { spot: Spot::Front(0), width: 4, texts: &["VAN ", "VON "] },
                    Window { spot: Spot::Front(0), width: 3, texts: &["SCH"] },
                    Window { spot: Spot::Ahead(1), width: 2, texts: &["ET"] },
                ],
            },
            Case {
                when: "E¹, I² or Y³ comes next, or (this is not the first letter, and one letter back: AGGI¹ or OGGI²); \
                    and IER¹ comes next",
                windows: &[
                    Window { spot: Spot::Ahead(1), width: 1, texts: &["E", "I", "Y"] },
                    Window { spot: Spot::Back(1), width: 4, texts: &["AGGI", "OGGI"] },
                    Window { spot: Spot::Ahead(1), width: 3, texts: &["IER"] },
                ],
            },
            Case {
                when: "E¹, I² or Y³ comes next; or this is not the first letter, and one letter back: AGGI¹ or OGGI²",
                windows: &[
                    Window { spot: Spot::Ahead(1), width: 1, texts: &["E", "I", "Y"] },
                    Window { spot: Spot::Back(1), width: 4, texts: &["AGGI", "OGGI"] },
                ],
            },
            Case { when: "the next letter is G", windows: &[] },
            Case { when: "otherwise", windows: &[] },
        ],
    },
    Letter {
        keys: "H",
        cases: &[
            Case {
                when: "this is the first letter, or the letter before is a vowel; and the next letter is a vowel",
                windows: &[],
            },
            Case { when: "otherwise", windows: &[] },
        ],
    },
    Letter {
        keys: "J",
        cases: &[
            Case {
                when: "JOSE¹ stands here, or the word begins with SAN␣¹; and (this is the first letter, and the letter \
                    four on is a space), or the word has exactly four letters, or the word begins with SAN␣¹",
                windows: &[
                    Window { spot: Spot::Ahead(0), width: 4, texts: &["JOSE"] },
                    Window { spot: Spot::Front(0), width: 4, texts: &["SAN "] },
                    Window { spot: Spot::Front(0), width: 4, texts: &["SAN "] },
                ],
            },
            Case {
                when: "JOSE¹ stands here, or the word begins with SAN␣¹",
                windows: &[
                    Window { spot: Spot::Ahead(0), width: 4, texts: &["JOSE"] },
                    Window { spot: Spot::Front(0), width: 4, texts: &["SAN "] },
                ],
            },
            Case { when: "this is the first letter, and JOSE does not stand here, and the next letter is J", windows: &[] },
            Case { when: "this is the first letter, and JOSE does not stand here", windows: &[] },
            Case {
                when: "this is not the first letter, and the letter before is a vowel, and the word is not Slavo-Germanic \
                    (has no W, K or CZ), and the next letter is A or O, and the next letter is J",
                windows: &[],
            },
            Case {
                when: "this is not the first letter, and the letter before is a vowel, and the word is not Slavo-Germanic \
                    (has no W, K or CZ), and the next letter is A or O",
                windows: &[],
            },
            Case { when: "this is the last letter, and the next letter is J", windows: &[] },
            Case { when: "this is the last letter", windows: &[] },
            Case {
                when: "none of L, T, K, S, N, M, B, Z comes next; and this is the first letter, or one letter back: none \
                    of S, K, L; and the next letter is J",
                windows: &[],
            },
            Case {
                when: "none of L, T, K, S, N, M, B, Z comes next; and this is the first letter, or one letter back: none \
                    of S, K, L",
                windows: &[],
            },
            Case { when: "the next letter is J", windows: &[] },
            Case { when: "otherwise", windows: &[] },
        ],
    },
    Letter {
        keys: "K",
        cases: &[Case { when: "the next letter is K", windows: &[] }, Case { when: "otherwise", windows: &[] }],
    },
    Letter {
        keys: "L",
        cases: &[
            Case {
                when: "the next letter is L; and (exactly two letters follow, and this is not the first letter, and one \
                    letter back: ILLO¹, ILLA² or ALLE³), or ((the word ends with AS¹ or OS², or the word ends with A¹ or \
                    O²), and one letter back: ALLE¹)",
                windows: &[
                    Window { spot: Spot::Back(1), width: 4, texts: &["ILLO", "ILLA", "ALLE"] },
                    Window { spot: Spot::Rear(2), width: 2, texts: &["AS", "OS"] },
                    Window { spot: Spot::Rear(1), width: 1, texts: &["A", "O"] },
                    Window { spot: Spot::Back(1), width: 4, texts: &["ALLE"] },
                ],
            },
            Case { when: "the next letter is L", windows: &[] },
            Case { when: "otherwise", windows: &[] },
        ],
    },
    Letter {
        keys: "M",
        cases: &[
            Case {
                when: "the next letter is M; or this is not the first letter, and one letter back: UMB¹, and (exactly one \
                    letter follows, or two letters on: ER¹)",
                windows: &[
                    Window { spot: Spot::Back(1), width: 3, texts: &["UMB"] },
                    Window { spot: Spot::Ahead(2), width: 2, texts: &["ER"] },
                ],
            },
            Case { when: "otherwise", windows: &[] },
        ],
    },
    Letter {
        keys: "N",
        cases: &[Case { when: "the next letter is N", windows: &[] }, Case { when: "otherwise", windows: &[] }],
    },
    Letter {
        keys: "P",
        cases: &[
            Case { when: "the next letter is H", windows: &[] },
            Case { when: "P¹ or B² comes next", windows: &[Window { spot: Spot::Ahead(1), width: 1, texts: &["P", "B"] }] },
            Case { when: "otherwise", windows: &[] },
        ],
    },
    Letter {
        keys: "Q",
        cases: &[Case { when: "the next letter is Q", windows: &[] }, Case { when: "otherwise", windows: &[] }],
    },
    Letter {
        keys: "R",
        cases: &[
            Case {
                when: "this is the fifth letter or later, and this is the last letter, and the word is not Slavo-Germanic \
                    (has no W, K or CZ), and two letters back: IE¹, and four letters back: neither ME nor MA, and the next \
                    letter is R",
                windows: &[Window { spot: Spot::Back(2), width: 2, texts: &["IE"] }],
            },
            Case {
                when: "this is the fifth letter or later, and this is the last letter, and the word is not Slavo-Germanic \
                    (has no W, K or CZ), and two letters back: IE¹, and four letters back: neither ME nor MA",
                windows: &[Window { spot: Spot::Back(2), width: 2, texts: &["IE"] }],
            },
            Case { when: "the next letter is R", windows: &[] },
            Case { when: "otherwise", windows: &[] },
        ],
    },
    Letter {
        keys: "S",
        cases: &[
            Case {
                when: "this is not the first letter, and one letter back: ISL¹ or YSL²",
                windows: &[Window { spot: Spot::Back(1), width: 3, texts: &["ISL", "YSL"] }],
            },
            Case {
                when: "this is the first letter, and SUGAR¹ stands here",
                windows: &[Window { spot: Spot::Ahead(0), width: 5, texts: &["SUGAR"] }],
            },
            Case {
                when: "SH¹ stands here, and HEIM¹, HOEK², HOLM³ or HOLZ⁴ comes next",
                windows: &[
                    Window { spot: Spot::Ahead(0), width: 2, texts: &["SH"] },
                    Window { spot: Spot::Ahead(1), width: 4, texts: &["HEIM", "HOEK", "HOLM", "HOLZ"] },
                ],
            },
            Case { when: "SH¹ stands here", windows: &[Window { spot: Spot::Ahead(0), width: 2, texts: &["SH"] }] },
            Case {
                when: "SIO¹ or SIA² stands here, or SIAN¹ stands here; and the word is Slavo-Germanic (has W, K or CZ)",
                windows: &[
                    Window { spot: Spot::Ahead(0), width: 3, texts: &["SIO", "SIA"] },
                    Window { spot: Spot::Ahead(0), width: 4, texts: &["SIAN"] },
                ],
            },
            Case {
                when: "SIO¹ or SIA² stands here, or SIAN¹ stands here",
                windows: &[
                    Window { spot: Spot::Ahead(0), width: 3, texts: &["SIO", "SIA"] },
                    Window { spot: Spot::Ahead(0), width: 4, texts: &["SIAN"] },
                ],
            },
            Case {
                when: "(this is the first letter, and M¹, N², L³ or W⁴ comes next), or Z¹ comes next; and Z¹ comes next",
                windows: &[
                    Window { spot: Spot::Ahead(1), width: 1, texts: &["M", "N", "L", "W"] },
                    Window { spot: Spot::Ahead(1), width: 1, texts: &["Z"] },
                    Window { spot: Spot::Ahead(1), width: 1, texts: &["Z"] },
                ],
            },
            Case {
                when: "this is the first letter, and M¹, N², L³ or W⁴ comes next; or Z¹ comes next",
                windows: &[
                    Window { spot: Spot::Ahead(1), width: 1, texts: &["M", "N", "L", "W"] },
                    Window { spot: Spot::Ahead(1), width: 1, texts: &["Z"] },
                ],
            },
            Case {
                when: "SC¹ stands here, and the letter two on is H, and three letters on: OO¹, ER², EN³, UY⁴, ED⁵ or EM⁶, \
                    and three letters on: ER¹ or EN²",
                windows: &[
                    Window { spot: Spot::Ahead(0), width: 2, texts: &["SC"] },
                    Window { spot: Spot::Ahead(3), width: 2, texts: &["OO", "ER", "EN", "UY", "ED", "EM"] },
                    Window { spot: Spot::Ahead(3), width: 2, texts: &["ER", "EN"] },
                ],
            },
            Case {
                when: "SC¹ stands here, and the letter two on is H, and three letters on: OO¹, ER², EN³, UY⁴, ED⁵ or EM⁶",
                windows: &[
                    Window { spot: Spot::Ahead(0), width: 2, texts: &["SC"] },
                    Window { spot: Spot::Ahead(3), width: 2, texts: &["OO", "ER", "EN", "UY", "ED", "EM"] },
                ],
            },
            Case {
                when: "SC¹ stands here, and the letter two on is H, and this is the first letter, and the word's fourth \
                    letter is no vowel, and the word's fourth letter is not W",
                windows: &[Window { spot: Spot::Ahead(0), width: 2, texts: &["SC"] }],
            },
            Case {
                when: "SC¹ stands here, and the letter two on is H",
                windows: &[Window { spot: Spot::Ahead(0), width: 2, texts: &["SC"] }],
            },
            Case {
                when: "SC¹ stands here, and two letters on: I¹, E² or Y³",
                windows: &[
                    Window { spot: Spot::Ahead(0), width: 2, texts: &["SC"] },
                    Window { spot: Spot::Ahead(2), width: 1, texts: &["I", "E", "Y"] },
                ],
            },
            Case { when: "SC¹ stands here", windows: &[Window { spot: Spot::Ahead(0), width: 2, texts: &["SC"] }] },
            Case {
                when: "this is the third letter or later, and this is the last letter, and two letters back: AI¹ or OI², \
                    and S¹ or Z² comes next",
                windows: &[
                    Window { spot: Spot::Back(2), width: 2, texts: &["AI", "OI"] },
                    Window { spot: Spot::Ahead(1), width: 1, texts: &["S", "Z"] },
                ],
            },
            Case {
                when: "this is the third letter or later, and this is the last letter, and two letters back: AI¹ or OI²",
                windows: &[Window { spot: Spot::Back(2), width: 2, texts: &["AI", "OI"] }],
            },
            Case { when: "S¹ or Z² comes next", windows: &[Window { spot: Spot::Ahead(1), width: 1, texts: &["S", "Z"] }] },
            Case { when: "otherwise", windows: &[] },
        ],
    },
    Letter {
        keys: "T",
        cases: &[
            Case {
                when: "TION¹ stands here, or TIA¹ or TCH² stands here",
                windows: &[
                    Window { spot: Spot::Ahead(0), width: 4, texts: &["TION"] },
                    Window { spot: Spot::Ahead(0), width: 3, texts: &["TIA", "TCH"] },
                ],
            },
            Case {
                when: "TH¹ stands here, or TTH¹ stands here; and two letters on: OM¹ or AM², or the word begins with VAN␣¹ \
                    or VON␣², or the word begins with SCH¹",
                windows: &[
                    Window { spot: Spot::Ahead(0), width: 2, texts: &["TH"] },
                    Window { spot: Spot::Ahead(0), width: 3, texts: &["TTH"] },
                    Window { spot: Spot::Ahead(2), width: 2, texts: &["OM", "AM"] },
                    Window { spot: Spot::Front(0), width: 4, texts: &["VAN ", "VON "] },
                    Window { spot: Spot::Front(0), width: 3, texts: &["SCH"] },
                ],
            },
            Case {
                when: "TH¹ stands here, or TTH¹ stands here",
                windows: &[
                    Window { spot: Spot::Ahead(0), width: 2, texts: &["TH"] },
                    Window { spot: Spot::Ahead(0), width: 3, texts: &["TTH"] },
                ],
            },
            Case { when: "T¹ or D² comes next", windows: &[Window { spot: Spot::Ahead(1), width: 1, texts: &["T", "D"] }] },
            Case { when: "otherwise", windows: &[] },
        ],
    },
    Letter {
        keys: "V",
        cases: &[Case { when: "the next letter is V", windows: &[] }, Case { when: "otherwise", windows: &[] }],
    },
    Letter {
        keys: "W",
        cases: &[
            Case { when: "WR¹ stands here", windows: &[Window { spot: Spot::Ahead(0), width: 2, texts: &["WR"] }] },
            Case {
                when: "this is the first letter; and the next letter is a vowel, or WH¹ stands here; and the next letter \
                    is a vowel",
                windows: &[Window { spot: Spot::Ahead(0), width: 2, texts: &["WH"] }],
            },
            Case {
                when: "this is the first letter; and the next letter is a vowel, or WH¹ stands here",
                windows: &[Window { spot: Spot::Ahead(0), width: 2, texts: &["WH"] }],
            },
            Case {
                when: "this is not the first letter, and this is the last letter, and the letter before is a vowel; or \
                    this is not the first letter, and one letter back: EWSKI¹, EWSKY², OWSKI³ or OWSKY⁴; or the word \
                    begins with SCH¹",
                windows: &[
                    Window { spot: Spot::Back(1), width: 5, texts: &["EWSKI", "EWSKY", "OWSKI", "OWSKY"] },
                    Window { spot: Spot::Front(0), width: 3, texts: &["SCH"] },
                ],
            },
            Case {
                when: "WICZ¹ or WITZ² stands here",
                windows: &[Window { spot: Spot::Ahead(0), width: 4, texts: &["WICZ", "WITZ"] }],
            },
            Case { when: "otherwise", windows: &[] },
        ],
    },
    Letter {
        keys: "X",
        cases: &[
            Case { when: "this is the first letter", windows: &[] },
            Case {
                when: "not (this is the last letter, and ((this is the fourth letter or later, and three letters back: IAU \
                    or EAU), or (this is the third letter or later, and two letters back: AU or OU))), and C¹ or X² comes \
                    next",
                windows: &[Window { spot: Spot::Ahead(1), width: 1, texts: &["C", "X"] }],
            },
            Case {
                when: "not (this is the last letter, and ((this is the fourth letter or later, and three letters back: IAU \
                    or EAU), or (this is the third letter or later, and two letters back: AU or OU)))",
                windows: &[],
            },
            Case { when: "C¹ or X² comes next", windows: &[Window { spot: Spot::Ahead(1), width: 1, texts: &["C", "X"] }] },
            Case { when: "otherwise", windows: &[] },
        ],
    },
    Letter {
        keys: "Z",
        cases: &[
            Case { when: "the next letter is H", windows: &[] },
            Case {
                when: "ZO¹, ZI² or ZA³ comes next, or (the word is Slavo-Germanic (has W, K or CZ), and this is not the \
                    first letter, and the letter before is not T); and the next letter is Z",
                windows: &[Window { spot: Spot::Ahead(1), width: 2, texts: &["ZO", "ZI", "ZA"] }],
            },
            Case {
                when: "ZO¹, ZI² or ZA³ comes next; or the word is Slavo-Germanic (has W, K or CZ), and this is not the \
                    first letter, and the letter before is not T",
                windows: &[Window { spot: Spot::Ahead(1), width: 2, texts: &["ZO", "ZI", "ZA"] }],
            },
            Case { when: "the next letter is Z", windows: &[] },
            Case { when: "otherwise", windows: &[] },
        ],
    },
    Letter { keys: "", cases: &[Case { when: "always", windows: &[] }] },
];
