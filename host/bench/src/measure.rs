use oracle::Oracle;
use simmerquilt::{encode_into, encode_into_in, Answer, DoubleMetaphone, Edition, CODE_ROOM};
use std::hint::black_box;
use std::time::Instant;

/// Rounds a row takes the median of.
pub const ROUNDS: usize = 301;

/// The crate takes about this long a round. A scheduler's slice is longer, so that most rounds are left alone where other
/// programs run too, and the slower of two is not stopped much more often than the faster.
pub const SECONDS: f64 = 0.001;

/// Encodes every word of a list.
pub type Pass<'a> = &'a dyn Fn(&[String]);

/// Words a second, each the median of all rounds.
pub struct Row {
    pub list: String,
    pub limit: Option<usize>,
    pub rust: f64,
    pub port: f64,
    pub wrapper: f64,
    /// The port on lent buffers by edition 2; the others are of edition 1.
    pub edition2: f64,
    /// The median of the rounds' ratios of port to crate.
    pub ratio: f64,
    pub wrapper_ratio: f64,
    /// That of edition 2 to edition 1, both by the port.
    pub edition2_ratio: f64,
}

/// Times the crate, the port on lent buffers, the wrapper that makes strings, and the port by edition 2. Each round is a further stretch
/// of the list, the same for all four, and another of them goes first.
pub fn measure(oracle: &Oracle, list: &str, words: &[String], limit: Option<usize>) -> Row {
    same_codes(oracle, words, limit);
    let rust = |words: &[String]| oracle.pass(words, limit);
    let port = |words: &[String]| port_pass(words, limit);
    let wrapper = |words: &[String]| wrapper_pass(words, limit);
    let edition2 = |words: &[String]| edition2_pass(words, limit);
    let passes: [Pass; 4] = [&rust, &port, &wrapper, &edition2];

    let stretch = ((SECONDS * rate(&rust, words)) as usize).clamp(1, words.len());
    let mut rates = [(); 4].map(|_| Vec::with_capacity(ROUNDS));
    for (round, words) in words.chunks_exact(stretch).cycle().take(ROUNDS).enumerate() {
        for turn in 0..4 {
            let which = (round + turn) % 4;
            rates[which].push(rate(passes[which], words));
        }
    }
    let [rust, port, wrapper, edition2] = rates;
    Row {
        list: list.to_string(),
        limit,
        ratio: median(ratios(&port, &rust)),
        wrapper_ratio: median(ratios(&wrapper, &rust)),
        edition2_ratio: median(ratios(&edition2, &port)),
        rust: median(rust),
        port: median(port),
        wrapper: median(wrapper),
        edition2: median(edition2),
    }
}

/// Words a second of one pass.
pub fn rate(pass: Pass, words: &[String]) -> f64 {
    let start = Instant::now();
    pass(words);
    words.len() as f64 / start.elapsed().as_secs_f64()
}

/// Each number to the other of the same round.
pub fn ratios(rates: &[f64], others: &[f64]) -> Vec<f64> {
    rates.iter().zip(others).map(|(rate, other)| rate / other).collect()
}

pub fn median(mut numbers: Vec<f64>) -> f64 {
    numbers.sort_by(f64::total_cmp);
    numbers[numbers.len() / 2]
}

fn port_pass(words: &[String], limit: Option<usize>) {
    lent_pass(words, limit, encode_into);
}

fn edition2_pass(words: &[String], limit: Option<usize>) {
    lent_pass(words, limit, |word, primary, alternate, limit| encode_into_in(2, word, primary, alternate, limit));
}

fn lent_pass(words: &[String], limit: Option<usize>, encode: impl Fn(&[u8], &mut [u8], &mut [u8], Option<u64>) -> Answer) {
    let (mut primary, mut alternate) = ([0; CODE_ROOM], [0; CODE_ROOM]);
    let limit = limit.map(|limit| limit as u64);
    for word in words {
        black_box(encode(black_box(word.as_bytes()), &mut primary, &mut alternate, limit));
        black_box((&primary, &alternate));
    }
}

fn wrapper_pass(words: &[String], limit: Option<usize>) {
    let encoder = DoubleMetaphone::new(limit);
    for word in words {
        let _ = black_box(encoder.double_metaphone(black_box(word)));
    }
}

/// Times of different answers could not be compared. Those of edition 2 are other ones only where it reads otherwise.
fn same_codes(oracle: &Oracle, words: &[String], limit: Option<usize>) {
    let encoder = DoubleMetaphone::new(limit);
    for word in words {
        for (edition, expected) in
            [(Edition::One, oracle.codes(word, limit)), (Edition::Two, oracle.edition2(word, limit).0)]
        {
            let got = encoder.in_edition(edition).double_metaphone(word);
            let got = got.map(|got| (got.primary().to_string(), got.alternate().to_string()));
            assert_eq!(got, Ok((expected.primary, expected.alternate)), "{word:?} under {limit:?} by {edition:?}");
        }
    }
}

/// What the port's time is spent on.
pub struct Spent {
    /// Nanoseconds a visit over words of 64 bytes with no limit.
    pub visit: f64,
    /// The same where one word comes again and again, so that the processor has learnt every branch of it.
    pub learnt: f64,
    /// Nanoseconds a word of 1,024 bytes takes before its first visit.
    pub scans: f64,
}

pub fn spent(middling: &[String], long: &[String]) -> Spent {
    let learnt = middling.iter().take(32).map(|word| a_visit(&vec![word.clone(); 2000])).collect();
    Spent {
        visit: a_visit(middling),
        learnt: median(learnt),
        // Limit 0 is full at once, so that nothing is visited.
        scans: 1e9 / steady(&|words| port_pass(words, Some(0)), long),
    }
}

/// Nanoseconds a visit with no limit.
fn a_visit(words: &[String]) -> f64 {
    let (mut primary, mut alternate) = ([0; CODE_ROOM], [0; CODE_ROOM]);
    let visits: usize =
        words.iter().map(|word| encode_into(word.as_bytes(), &mut primary, &mut alternate, None).visits).sum();
    1e9 * words.len() as f64 / visits as f64 / steady(&|words| port_pass(words, None), words)
}

/// Words a second, the median of some passes.
fn steady(pass: Pass, words: &[String]) -> f64 {
    median((0..31).map(|_| rate(pass, words)).collect())
}
