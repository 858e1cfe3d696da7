//! What the words take for granted: what a condition means, which case speaks, and what is told of it, as the definition has it. Where one
//! of these changes, the words and [`crate::visits`] have to be thought over, and then this copy.
use super::tokens::{items, written, Token};
use super::{Fault, Source};

/// Where this copy stands.
const HERE: &str = "host/rules/src/read/known.rs";

const KNOWN: &[(&str, &str)] = &[
    (
        "crates/byte/specs/Vowel.antt",
        r#"
vowel = among (bytes "AEIOUY")
"#,
    ),
    (
        "crates/terms/specs/Editions.antt",
        r#"
is_second E1 = false
is_second E2 = true
"#,
    ),
    (
        "crates/outcome/specs/Answers.antt",
        r#"
or_else a b = cond (eqb a 0) b a
"#,
    ),
    (
        "crates/rules/specs/Cond.antt",
        r#"
infixl 40 ◌&◌
infixl 30 ◌or◌
pub data Spot : Type 0 where
  ahead : (k : ℕ) → Spot
  back : (k : ℕ) → Spot
  front : (k : ℕ) → Spot
  rear : (k : ℕ) → Spot
pub data Cond : Type 0 where
  always : Cond
  window : Spot → (n : ℕ) → List String → Cond
  byte : Spot → Char → Cond
  vowel : Spot → Cond
  place : (k : ℕ) → Cond
  past : (k : ℕ) → Cond
  below : (k : ℕ) → Cond
  left : (k : ℕ) → Cond
  long : (n : ℕ) → Cond
  slavo : Cond
  edition2 : Cond
  non : Cond → Cond
  ◌&◌ : Cond → Cond → Cond
  ◌or◌ : Cond → Cond → Cond
at (ahead k) u p f = f (p + k)
at (back k) u p f = step_back p k f
at (front k) u p f = f k
at (rear k) u p f = from_rear u k f
holds always u p m = true
holds (window s n ts) u p m = at s u p (λ (q : ℕ). sees u q n (map bytes ts))
holds (byte s b) u p m = at s u p (λ (q : ℕ). byte_at u q (code b))
holds (vowel s) u p m = at s u p (λ (q : ℕ). vowel_at u q)
holds (place k) u p m = eqb p k
holds (past k) u p m = ltb k p
holds (below k) u p m = ltb p k
holds (left k) u p m = ends_after u p k
holds (long n) u p m = is_long u n
holds slavo u p m = m.mark
holds edition2 u p m = m.second
holds (non c) u p m = not (holds c u p m)
holds (c & d) u p m = holds c u p m && holds d u p m
holds (c or d) u p m = holds c u p m || holds d u p m
"#,
    ),
    (
        "crates/rules/specs/Case.antt",
        r#"
case c p a n = record { when = c; primary = p; alternate = a; over = n }
first [] u p m = adds "" "" 0
first (c ∷ cs) u p m = cond (holds c.when u p m) (gives c) (first cs u p m)
"#,
    ),
    (
        "crates/rules/specs/Told.antt",
        r#"
tell_at (ahead k) u p f = f (p + k)
tell_at (back k) u p f = tell_back p k f
tell_at (front k) u p f = f k
tell_at (rear k) u p f = tell_back (length u) k f
text_of always u p = 0
text_of (window s n ts) u p = tell_at s u p (λ (q : ℕ). text_at u q n (map bytes ts))
text_of (byte s b) u p = 0
text_of (vowel s) u p = 0
text_of (place k) u p = 0
text_of (past k) u p = 0
text_of (below k) u p = 0
text_of (left k) u p = 0
text_of (long n) u p = 0
text_of slavo u p = 0
text_of edition2 u p = 0
text_of (non c) u p = 0
text_of (c & d) u p = or_else (text_of c u p) (text_of d u p)
text_of (c or d) u p = or_else (text_of c u p) (text_of d u p)
numbered_from i [] = []
numbered_from i (c ∷ cs) = number i c ∷ numbered_from (i + 1) cs
numbered cs = numbered_from 1 cs
speaker [] u p m = spoke 0 0 (adds "" "" 0)
speaker (k ∷ ks) u p m = cond (holds k.case.when u p m) (spoke k.number (text_of k.case.when u p) (gives k.case)) (speaker ks u p m)
"#,
    ),
    (
        "crates/rules/specs/Table.antt",
        r#"
row ks cs = record { keys = ks; cases = cs }
cases_in [] b = cases_rest
cases_in (r ∷ rs) b = cond (among (bytes r.keys) b) r.cases (cases_in rs b)
visit u p m = first (cases_in rows (get_or u p 0)) u p m
spoken_at u p m = speaker (numbered (cases_in rows (get_or u p 0))) u p m
"#,
    ),
    (
        "crates/word/specs/Mark.antt",
        r#"
mark_texts = map bytes ("W" ∷ "K" ∷ "CZ" ∷ "WITZ" ∷ [])
mark_texts_brief = map bytes ("W" ∷ "K" ∷ "CZ" ∷ [])
slavo_germanic u = has_one mark_texts u
"#,
    ),
    (
        "crates/word/specs/Start.antt",
        r#"
silent_starts = map bytes ("GN" ∷ "KN" ∷ "PN" ∷ "WR" ∷ "PS" ∷ [])
start_of w = cond (sees (upper w) 0 2 silent_starts) 1 0
"#,
    ),
];

/// Fails unless each of these stands in its file as it does here, with no further equation of the same name.
pub fn check(source: Source) -> Result<(), Fault> {
    for (file, text) in KNOWN {
        let known = items(file, text)?;
        let found = items(file, &source(file)?)?;
        let named: Vec<&Vec<Token>> = found.iter().filter(|item| known.iter().any(|own| name(own) == name(item))).collect();
        if let Some(item) = named.iter().find(|item| !known.iter().any(|own| written(own) == written(item))) {
            return Err(Fault::at(file, item[0].line, &format!("not as {HERE} has it: {}", written(item))));
        }
        if let Some(own) = known.iter().find(|own| !named.iter().any(|item| written(own) == written(item))) {
            return Err(Fault::new(format!("{file}: {HERE} rests on this, which is gone: {}", written(own))));
        }
    }
    Ok(())
}

/// What an equation, an operator's rank or a type's declaration is of. A signature or a `use` is of nothing that is asked for.
fn name(item: &[Token]) -> String {
    let index = if item[0].is("infixl") || item[0].is("pub") { 2 } else { 0 };
    written(item.get(index..=index).unwrap_or_default())
}
