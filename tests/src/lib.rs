//! A second implementation of the furnace log, written from the paper alone,
//! and the tools that hold another implementation against it.

#![deny(warnings)]
#![deny(unsafe_code)]

pub mod bench;
pub mod boundary;
pub mod call;
pub mod differential;
pub mod dump;
pub mod edit;
pub mod faulty;
pub mod generate;
pub mod input;
pub mod mutations;
pub mod order_kept;
pub mod picture;
pub mod plant;
pub mod random;
pub mod reference;
pub mod sketch;
pub mod view;
pub mod wire;
