//! The tests of the second program: document 01 and its readings, case by
//! case, and the game against its definition.

mod body;
mod certificate;
mod commands;
mod common;
mod definition;
mod game;
mod generated;
mod header;
mod limits;
mod lines;
mod packed;
mod printing;
mod starred;
mod symbols;
