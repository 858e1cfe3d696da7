//! The table of the letter rules, as the definition has it (crates/rules/specs/Cond.antt, Case.antt, Table.antt).

/// Where a test looks: so many bytes ahead of the visited place, back from it, from the word's front, before its end.
#[derive(Clone, Copy, Debug, PartialEq, Eq)]
pub enum Spot {
    Ahead(usize),
    Back(usize),
    Front(usize),
    Rear(usize),
}

/// A window test: the bytes at the spot, as many as the width, are one of the texts.
#[derive(Clone, Debug, PartialEq, Eq)]
pub struct Window {
    pub spot: Spot,
    pub width: usize,
    pub texts: Vec<String>,
}

/// What a case asks.
#[derive(Clone, Debug, PartialEq, Eq)]
pub enum Cond {
    Always,
    Window(Window),
    Byte(Spot, char),
    Vowel(Spot),
    Place(usize),
    Past(usize),
    Below(usize),
    Left(usize),
    Long(usize),
    Slavo,
    Edition2,
    Non(Box<Cond>),
    And(Box<Cond>, Box<Cond>),
    Or(Box<Cond>, Box<Cond>),
}

impl Cond {
    /// The window tests in the order in which they stand, those under a `non` left out: they tell the number of the text that matched.
    pub fn windows(&self) -> Vec<&Window> {
        match self {
            Cond::Window(window) => vec![window],
            Cond::And(first, second) | Cond::Or(first, second) => [first.windows(), second.windows()].concat(),
            _ => Vec::new(),
        }
    }

    /// Whether the edition is asked for.
    pub fn asks_edition(&self) -> bool {
        match self {
            Cond::Edition2 => true,
            Cond::Non(cond) => cond.asks_edition(),
            Cond::And(first, second) | Cond::Or(first, second) => first.asks_edition() || second.asks_edition(),
            _ => false,
        }
    }
}

/// A case: what it asks, what it adds to each code, how many bytes it passes over; and the file and line where it stands.
#[derive(Clone, Debug, PartialEq, Eq)]
pub struct Case {
    pub when: Cond,
    pub primary: String,
    pub alternate: String,
    pub over: usize,
    pub at: String,
}

/// The bytes that share a row, and their cases. The last row of a table has no keys: it is that of all other bytes.
#[derive(Clone, Debug, PartialEq, Eq)]
pub struct Row {
    pub keys: String,
    pub cases: Vec<Case>,
}

impl Row {
    /// What the row is called: its first letter, or `rest`.
    pub fn name(&self) -> &str {
        self.keys.get(..1).unwrap_or("rest")
    }
}

/// All rows, in the definition's order.
#[derive(Clone, Debug, PartialEq, Eq)]
pub struct Table {
    pub rows: Vec<Row>,
}

impl Table {
    /// How many cases there are in all.
    pub fn count(&self) -> usize {
        self.rows.iter().map(|row| row.cases.len()).sum()
    }

    /// The row of a byte, in capitals.
    pub fn row(&self, byte: u8) -> &Row {
        let has = |row: &&Row| row.keys.is_empty() || row.keys.as_bytes().contains(&byte);
        self.rows.iter().find(has).expect("the last row has all other bytes")
    }
}
