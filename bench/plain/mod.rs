//! What the two plain programs share: `../peer.rs`, written for speed alone, and `../duties.rs`, with the duties of the
//! proved program.

pub mod lists;
pub mod replica;
pub mod script;
pub mod text;
