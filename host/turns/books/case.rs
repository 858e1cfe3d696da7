//! Which books the calls are made on.
use super::library::{Library, NEW, OLD};
use super::stations::{rising, List, Lists, FEW_PAIRS, GAUGES, MANY_STATIONS};
use words::{gauges, Rng};

/// The shortest are read in about the time of a turn that a scheduler leaves alone; what is counted is counted on these.
const SIZES: [usize; 3] = [10_000, 100_000, 1_000_000];

#[derive(Clone, Copy, PartialEq)]
pub enum Call {
    /// Writing a book from its start.
    Append,
    Read,
    /// Going through the records by `next`.
    Walk,
    /// The join's pairs, counted.
    Count,
    Join,
}

pub const CALLS: [Call; 5] = [Call::Append, Call::Read, Call::Walk, Call::Count, Call::Join];

impl Call {
    pub fn name(self) -> &'static str {
        match self {
            Call::Append => "start and append",
            Call::Read => "read",
            Call::Walk => "next",
            Call::Count => "join count",
            Call::Join => "join",
        }
    }
}

/// What books are made of: one for a single limit, two for two of them.
pub struct Setting {
    lists: Lists,
    pub limits: &'static [Option<u64>],
    sizes: &'static [usize],
}

/// The joins are those of the benchmark, but for the longest books.
const SETTINGS: &[Setting] = &[
    Setting { lists: GAUGES, limits: &[Some(4)], sizes: &SIZES },
    Setting { lists: GAUGES, limits: &[None], sizes: SIZES.split_at(2).0 },
    Setting { lists: GAUGES, limits: &[Some(4), Some(6)], sizes: SIZES.split_at(2).0 },
    Setting { lists: MANY_STATIONS, limits: &[Some(12), None], sizes: SIZES.split_at(2).0 },
    Setting { lists: FEW_PAIRS, limits: &[Some(12), None], sizes: SIZES.split_at(2).0 },
];

/// A setting at one size, in books of the old library's and of the new library's format.
pub struct Case {
    pub setting: &'static Setting,
    pub records: usize,
    pub formats: [u32; 2],
}

impl Case {
    pub fn calls(&self) -> &'static [Call] {
        match self.setting.limits {
            [_, _] => &[Call::Count, Call::Join],
            _ => &[Call::Append, Call::Read, Call::Walk],
        }
    }

    /// A list for each book.
    pub fn lists(&self) -> Vec<List> {
        if let [_, _] = self.setting.limits {
            return self.setting.lists.two(self.records).into();
        }
        let rng = &mut Rng::new(2, 0);
        let names = gauges(rng, self.records);
        vec![rising(rng, names)]
    }

    /// What the table tells of it: names, records, limit, format.
    pub fn cells(&self) -> Vec<String> {
        let limit = |limit: &Option<u64>| limit.map_or("none".to_string(), |limit| limit.to_string());
        let limits: Vec<String> = self.setting.limits.iter().map(limit).collect();
        vec![self.setting.lists.name.to_string(), self.records.to_string(), limits.join(" and "), formats_text(self.formats)]
    }

    /// How many there are where the shortest have so many. Each library begins three or more: their median leaves out one that was
    /// disturbed.
    pub fn rounds(&self, of_shortest: usize) -> usize {
        (of_shortest * SIZES[0]).div_ceil(self.records).max(6)
    }
}

pub fn formats_text([old, new]: [u32; 2]) -> String {
    if old == new {
        old.to_string()
    } else {
        format!("{old} and {new}")
    }
}

/// Each format that both libraries take; and where they start books of different formats, each its own.
pub fn formats() -> Vec<[u32; 2]> {
    let takes = |library: Library, format| {
        let mut book = started(library);
        book[0] = format;
        library.open(&book)[0] == 0
    };
    let mut formats: Vec<[u32; 2]> =
        (0..128).filter(|format| takes(OLD, *format) && takes(NEW, *format)).map(|format| [u32::from(format); 2]).collect();
    let own = [OLD, NEW].map(|library| u32::from(started(library)[0]));
    if own[0] != own[1] {
        formats.push(own);
    }
    formats
}

/// A new book without records.
fn started(library: Library) -> Vec<u8> {
    let mut room = vec![0; 6];
    let [_, length] = library.start(&mut room, None);
    room.truncate(length as usize);
    room
}

pub fn cases() -> Vec<Case> {
    let mut cases = Vec::new();
    for formats in formats() {
        for setting in SETTINGS {
            cases.extend(setting.sizes.iter().map(|records| Case { setting, records: *records, formats }));
        }
    }
    cases
}

/// Those with the shortest books.
pub fn counted() -> Vec<Case> {
    cases().into_iter().filter(|case| case.records == SIZES[0]).collect()
}
