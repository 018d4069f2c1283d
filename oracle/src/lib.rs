//! The Rust as judge. `judge` runs docs/src (unchanged) on sessions of document 01; `reference` is a plain implementation of
//! document 01; `compare` runs both, and any program that speaks the session protocol, on one stream of sessions.

pub mod answer;
pub mod compare;
pub mod direct;
pub mod external;
pub mod frames;
pub mod generate;
pub mod judge;
pub mod reference;
pub mod rng;
pub mod sensitivity;
pub mod session;
pub mod topic;
pub mod wrong;
