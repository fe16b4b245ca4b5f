//! The independent second program: the server side of PACSAT File Transfer
//! Level 0, version 0, written from the papers alone. It is the oracle that
//! the proved server is compared with, so it prefers the plain way to the
//! quick one everywhere.

pub mod class;
pub mod coverage;
pub mod desk;
pub mod draft;
pub mod equation;
pub mod folder;
pub mod generator;
pub mod header;
pub mod lines;
pub mod packet;
pub mod paper;
pub mod program;
pub mod random;
pub mod refusal;
pub mod script;
pub mod server;
pub mod shorten;
pub mod sound;
pub mod store;
pub mod variants;
pub mod why;
