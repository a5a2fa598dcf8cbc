//! The functions of the static library, and what the tests hold them to: Rust's own operations for the float leaves, a
//! model for the recording, one for the question whether a span was measured, one for the bus's frames, one for the
//! crackle detector, one for declip by a proposal, one for stored settings and one for WAV files, for the samples that a
//! repair writes the original Rust, and for the order of a gap's model a prediction step of the host's.
pub mod both;
pub mod call;
pub mod cathar;
pub mod count;
pub mod crackle;
pub mod damage;
pub mod draw;
pub mod either;
pub mod float;
pub mod frames;
pub mod inpaint;
pub mod lent;
pub mod machine;
pub mod original;
pub mod prediction;
pub mod proposals;
pub mod proposed;
pub mod question;
pub mod recording;
pub mod room;
pub mod root;
pub mod settings;
pub mod shapes;
pub mod sounds;
pub mod stored;
pub mod tally;
pub mod wav;
pub mod whole;
pub mod wrong;
