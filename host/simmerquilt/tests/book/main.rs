//! The station key book beside a plain reader and writer: whole books, damaged ones, every refusal, stations that close and the room that
//! comes back, and books in files.
mod adding;
mod appending;
mod closing;
mod damaged;
mod draw;
mod files;
mod growing;
mod kinds;
mod lives;
mod reading;
mod room_back;
mod stored;
mod witness;
