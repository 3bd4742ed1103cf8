//! Happy Eyeballs races (RFC 8305) by libhe: a [`Race`] says which address to connect to and when, and keeps the
//! record of what happened. It has no sockets and no clock: `examples/connect.rs` is a client over std.
//!
//! A turn of a race: [`Race::turn`] with the milliseconds since the race began; [`Race::answered`] and [`Race::ended`]
//! for what has happened; then [`Race::next_step`] until it is no [`Step::Start`]. The milliseconds may be those of the
//! turn before.
#![forbid(unsafe_op_in_unsafe_fn)]

mod calls;
mod race;

pub use calls::{check, explain, order, record_line, replay, version, Error};
pub use race::{Family, Race, Start, Step};
