use crate::{gauges, sized, Rng};

/// The limits that each list is timed under.
pub const LIMITS: [Option<usize>; 3] = [Some(4), Some(6), None];

/// A list has about this many bytes, so that it stays in the cache and its words are too many to be learnt by heart.
const BYTES: usize = 1 << 18;

/// What is timed: the name of a list, and its words.
pub fn lists() -> Vec<(String, Vec<String>)> {
    let rng = &mut Rng::new(1, 0);
    let mut lists = vec![("gauge names".to_string(), gauges(rng, 5000))];
    for length in [16, 64, 256, 1024] {
        lists.push((format!("words of {length} bytes"), sized(rng, (BYTES / length).min(5000), length)));
    }
    lists
}
