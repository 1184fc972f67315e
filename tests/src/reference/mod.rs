//! The second implementation: one file a topic, each rule where the paper states it.

pub mod bytes;
pub mod code;
pub mod compose;
pub mod image;
pub mod listing;
pub mod message;
pub mod order;
pub mod plain;
pub mod print_log;
pub mod purge;
pub mod purged;
pub mod reader;
pub mod sequences;
pub mod setpoints;
pub mod station;
pub mod steps;
pub mod text;
