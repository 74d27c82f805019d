//! An independent implementation of document 01 and of what has landed of document 02, written from them and ISO/IEC 30193:2021 alone. It shares no code
//! with anything: `plain` says each step as the standard does, `fast` works by tables and gives the same answers.
pub mod ahead;
pub mod code;
pub mod columns;
pub mod fast;
pub mod plain;
pub mod queue;
pub mod sheet;
