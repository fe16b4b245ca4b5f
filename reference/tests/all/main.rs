//! All tests, in one program so that they build quickly.

mod common;

mod class;
mod compare;
mod desk;
mod equation;
mod examples;
mod generator;
mod header;
mod history;
mod packet;
mod paper;
mod script;
mod server;
mod sound;
mod why;
