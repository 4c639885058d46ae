//! Runs calls through document 01's model and what is held against it: the
//! published Rust (`run`), where listed differences are forgiven, and a library
//! of the eleven calls (`gate`), where none is; or through all three (`three`).
//! `plain` holds a library against demand 3's plain arrays.

pub mod alone;
pub mod archive;
pub mod batch;
pub mod broken;
pub mod created;
pub mod damage;
pub mod differences;
pub mod edges;
pub mod fragments;
pub mod gate;
pub mod generate;
pub mod given;
pub mod guard;
pub mod library;
pub mod lists;
pub mod many;
pub mod mixed;
pub mod plain;
pub mod ranges;
pub mod recorded;
pub mod rough;
pub mod run;
pub mod runs;
pub mod sample;
pub mod shrink;
pub mod smallest;
pub mod stretches;
pub mod three;
pub mod walk;
pub mod writes;
