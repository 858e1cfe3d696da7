//! Two buffers with guard bytes around them, lent to the port.

/// Guard bytes before, between and behind the buffers.
const GUARD: usize = 16;

/// One stretch of memory: guard, primary buffer, guard, alternate buffer, guard. Before each call all of it holds a pattern.
pub struct Lent {
    bytes: Vec<u8>,
    pattern: Vec<u8>,
    primary: usize,
    alternate: usize,
}

impl Lent {
    pub fn new() -> Self {
        Lent { bytes: Vec::new(), pattern: Vec::new(), primary: 0, alternate: 0 }
    }

    /// Fresh buffers of these lengths.
    pub fn buffers(&mut self, primary: usize, alternate: usize) -> (&mut [u8], &mut [u8]) {
        (self.primary, self.alternate) = (primary, alternate);
        let length = self.alternate_at() + alternate + GUARD;
        // No code has a byte of 128 or more, so no code looks like the pattern.
        while self.pattern.len() < length {
            self.pattern.push(128 | self.pattern.len() as u8);
        }
        self.bytes.clear();
        self.bytes.extend_from_slice(&self.pattern[..length]);
        let (front, back) = self.bytes.split_at_mut(GUARD + primary + GUARD);
        (&mut front[GUARD..GUARD + primary], &mut back[..alternate])
    }

    fn alternate_at(&self) -> usize {
        GUARD + self.primary + GUARD
    }

    /// Whether the buffers begin with these codes and every other byte, guards included, keeps what it held.
    pub fn holds(&self, primary: &[u8], alternate: &[u8]) -> bool {
        let primary_end = GUARD + primary.len();
        let alternate_at = self.alternate_at();
        let alternate_end = alternate_at + alternate.len();
        let kept = |from: usize, to: usize| self.bytes[from..to] == self.pattern[from..to];
        kept(0, GUARD)
            && &self.bytes[GUARD..primary_end] == primary
            && kept(primary_end, alternate_at)
            && &self.bytes[alternate_at..alternate_end] == alternate
            && kept(alternate_end, self.bytes.len())
    }

    /// Both buffers as they are now, for a report.
    pub fn shown(&self) -> String {
        let show = |from: usize, length: usize| self.bytes[from..from + length].escape_ascii().to_string();
        let around = if self.holds_guards() { "" } else { ", and bytes around them" };
        format!("buffers \"{}\" and \"{}\"{around}", show(GUARD, self.primary), show(self.alternate_at(), self.alternate))
    }

    fn holds_guards(&self) -> bool {
        let kept = |from: usize| self.bytes[from..from + GUARD] == self.pattern[from..from + GUARD];
        kept(0) && kept(GUARD + self.primary) && kept(self.alternate_at() + self.alternate)
    }
}
