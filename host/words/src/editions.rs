/// Numbers that are no edition: beside those that are, those that look like them in fewer bits, and the largest.
pub const UNKNOWN_EDITIONS: [u64; 8] = [3, 0, u64::MAX, (1 << 32) + 1, (1 << 32) + 2, 257, 258, 4];
