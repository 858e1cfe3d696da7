/// What the letter rules ask for, and what surrounds it.
#[rustfmt::skip]
pub const FRAGMENTS: &[&str] = &[
    "A", "E", "I", "O", "U", "Y", " ", "A", "E", "I", "O", "U", "Y", " ",
    "B", "C", "D", "F", "G", "H", "J", "K", "L", "M", "N", "P", "Q", "R", "S", "T", "V", "W", "X", "Z",
    "GN", "KN", "PN", "WR", "PS", "CZ", "WITZ", "WICZ", "CHIA", "ACH", "ACHI", "ACHE", "BACHER", "MACHER", "CAESAR", "CH", "CHAE",
    "CHARAC", "CHARIS", "CHOR", "CHYM", "CHEM", "CHORE", "VAN", "VON", "VAN ", "VON ", "SCH", "ORCHES", "ARCHIT", "ORCHID",
    "CHT", "CHS", "ACHL", "OCHR", "UCHN", "ECHM", "ACH ", "MC", "CCIA", "CC", "CCI", "CCE", "CCH", "CCHU", "ACCE", "UCCEE", "UCCES",
    "CK", "CG", "CQ", "CI", "CE", "CY", "CIO", "CIE", "CIA", "C C", "C Q", "C G", "DG", "DGE", "DGI", "DGY", "DT", "DD",
    "GH", "GHI", "GHT", "BOUGH", "HUGH", "DAUGH", "LAUGH", "COUGH", "ROUGH", "IGH", "GNEY", "GLI", "GES", "GEP", "GEB", "GEL", "GEY",
    "GIB", "GIL", "GIN", "GIE", "GEI", "GER", "GY", "DANGER", "RANGER", "MANGER", "RGY", "OGY", "EGER", "AGGI", "OGGI", "GET", "GIER",
    "GG", "HH", "AHA", "JOSE", "JOSE ", "SAN ", "AJA", "OJO", "JJ", "SJ", "KJ", "LJ", "JL", "JT", "JZ", "AJ", "ILLO", "ILLA", "ALLE",
    "AS", "OS", "LL", "UMB", "UMBER", "MM", "PH", "PP", "PB", "IER", "MEIER", "MAIER", "RR", "ISL", "YSL", "SUGAR", "SH", "SHEIM",
    "SHOEK", "SHOLM", "SHOLZ", "SIO", "SIA", "SIAN", "SM", "SN", "SL", "SW", "SZ", "SC", "SCHOO", "SCHER", "SCHEN", "SCHUY", "SCHED",
    "SCHEM", "SCHW", "SCI", "SCE", "SCY", "AIS", "OIS", "SS", "TION", "TIA", "TCH", "TH", "TTH", "THOM", "THAM", "TT", "TD", "WH",
    "AW", "EWSKI", "EWSKY", "OWSKI", "OWSKY", "IAUX", "EAUX", "AUX", "OUX", "XC", "XX", "ZH", "ZZO", "ZZI", "ZZA", "TZ", "ZZ", "XZ",
    "1", "-", "'", ".",
];
