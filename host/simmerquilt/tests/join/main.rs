//! The join beside a plain one: books of right codes and of any codes under both formats and editions at all pairs of cuts, closed
//! records, every refusal, what is left of scratch and room, and the lists that it was made for.
mod closed;
mod draw;
mod lists;
mod names;
mod pairs;
mod refusals;
mod rooms;
mod witness;
