//! What the tests share: how a row is read and answered, characters that a line can't hold, chunks and typed values as texts.

pub mod chunks;
pub mod dates;
pub mod escapes;
pub mod rows;
pub mod shown;
