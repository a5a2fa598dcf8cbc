//! The original Rust, unchanged and from where it stands: `build.rs` finds it and writes the lines that name
//! its files. None of it is copied into this package. What declip.rs names beside itself has stand-ins: `util.rs`
//! and the packages in `standin`. Behind its text, where it is compiled, stands a function that hands its
//! `project_gamma` on.
pub mod ask;
mod util;

include!(concat!(env!("OUT_DIR"), "/original.rs"));
