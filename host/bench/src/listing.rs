//! What the listing costs beside the encoder, on lent room, in turns over the same words.
use crate::measure::{median, rate, ratios, Pass, ROUNDS, SECONDS};
use crate::report::shown;
use simmerquilt::{encode_into, explain_into, CODE_ROOM, ROW, WORD_LIMIT};
use std::hint::black_box;

/// Nanoseconds a word, each the median of all rounds, and the median of the rounds' ratios of listing to encoder.
struct Cost {
    encode: f64,
    explain: f64,
    ratio: f64,
}

/// The section of the page, with a row for each list and limit.
pub fn section(lists: &[(String, Vec<String>)], limits: &[Option<usize>]) -> String {
    let mut text = format!(
        "## The listing\n\nNanoseconds a word by edition 1, on lent room: both codes (encode), and the listing of which rule spoke at \
each visit (explain), which asks the encoder first and then goes over the visits again. They take turns over the same words in one run; \
a number is the median of {ROUNDS} rounds, and the ratio is that of the listing's time to the encoder's.\n\n\
| words | limit | encode | explain | ratio |\n|---|---|--:|--:|--:|\n"
    );
    for (list, words) in lists {
        for limit in limits {
            let cost = measure(words, *limit);
            text +=
                &format!("| {list} | {} | {:.0} | {:.0} | {:.2} |\n", shown(*limit), cost.encode, cost.explain, cost.ratio);
        }
    }
    text
}

fn measure(words: &[String], limit: Option<usize>) -> Cost {
    let encode = |words: &[String]| encode_pass(words, limit);
    let explain = |words: &[String]| explain_pass(words, limit);
    let passes: [Pass; 2] = [&encode, &explain];
    let stretch = ((SECONDS * rate(&explain, words)) as usize).clamp(1, words.len());
    let mut rates = [(); 2].map(|_| Vec::with_capacity(ROUNDS));
    for (round, words) in words.chunks_exact(stretch).cycle().take(ROUNDS).enumerate() {
        for turn in 0..2 {
            let which = (round + turn) % 2;
            rates[which].push(rate(passes[which], words));
        }
    }
    let [encode, explain] = rates;
    Cost { ratio: median(ratios(&encode, &explain)), encode: 1e9 / median(encode), explain: 1e9 / median(explain) }
}

fn encode_pass(words: &[String], limit: Option<usize>) {
    let (mut primary, mut alternate) = ([0; CODE_ROOM], [0; CODE_ROOM]);
    for word in words {
        black_box(encode_into(black_box(word.as_bytes()), &mut primary, &mut alternate, limit.map(|limit| limit as u64)));
        black_box((&primary, &alternate));
    }
}

fn explain_pass(words: &[String], limit: Option<usize>) {
    let mut rows = [0; ROW * WORD_LIMIT];
    for word in words {
        black_box(explain_into(1, black_box(word.as_bytes()), limit.map(|limit| limit as u64), &mut rows));
        black_box(&rows);
    }
}
