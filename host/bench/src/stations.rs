//! What books are made of: names in two lists that have some gauges in common. host/turns has this file too.
use words::{gauges, respelt, Rng};

/// Names under rising stations.
pub type List = Vec<(u64, String)>;

/// Lists of one kind.
pub struct Lists {
    pub name: &'static str,
    /// The names of a list's gauges.
    names: fn(&mut Rng, usize) -> Vec<String>,
    /// How many stations a gauge has in a list, each in its own spelling.
    stations: usize,
}

pub const GAUGES: Lists = Lists { name: "gauges", names: gauges, stations: 1 };
/// About forty pairs a record at every size.
pub const MANY_STATIONS: Lists = Lists { name: "places, 80 stations each", names: at_places, stations: 80 };
/// Nearly each gauge has a key of its own.
pub const FEW_PAIRS: Lists = Lists { name: "places, few pairs", names: at_places, stations: 1 };

/// Gauges with the place where each stands.
fn at_places(rng: &mut Rng, count: usize) -> Vec<String> {
    let rivers = gauges(rng, count);
    rivers.into_iter().zip(gauges(rng, count)).map(|(river, place)| format!("{river} at {place}")).collect()
}

impl Lists {
    /// Two lists. The second has half of the first's gauges and as many of its own.
    pub fn two(&self, records: usize) -> [List; 2] {
        let rng = &mut Rng::new(3, 0);
        let ours = (self.names)(rng, records.div_ceil(self.stations));
        let mut theirs = (self.names)(rng, ours.len());
        theirs.iter_mut().zip(&ours).step_by(2).for_each(|(theirs, ours)| theirs.clone_from(ours));
        let names = [ours, theirs].map(|gauges| {
            let mut names = self.spelt(rng, &gauges);
            names.truncate(records);
            names
        });
        let rng = &mut Rng::new(4, 0);
        names.map(|names| rising(rng, names))
    }

    /// All stations of these gauges, in mixed order.
    fn spelt(&self, rng: &mut Rng, gauges: &[String]) -> Vec<String> {
        let mut names: Vec<String> =
            gauges.iter().flat_map(|name| vec![name; self.stations]).map(|name| respelt(rng, name)).collect();
        rng.shuffle(&mut names);
        names
    }
}

/// The steps leave a million stations room.
pub fn rising(rng: &mut Rng, names: Vec<String>) -> List {
    let mut station = 0;
    let mut next = || {
        station += 1 + rng.below(200) as u64;
        station
    };
    names.into_iter().map(|name| (next(), name)).collect()
}
