//! The harness: cases in the form in which document 01 lends them, and the unchanged Rust source
//! as the judge of what is right for them.
pub mod answer;
pub mod border;
pub mod boundary;
pub mod buffer;
pub mod case;
pub mod catalogue;
#[cfg(oracle)]
pub mod compare;
pub mod damage;
#[cfg(oracle)]
pub mod definitions;
#[cfg(oracle)]
pub mod double;
pub mod expect;
pub mod failed;
pub mod fuzz;
pub mod generate;
pub mod lots;
#[cfg(oracle)]
pub mod oracle;
pub mod query;
pub mod random;
pub mod ranges;
#[cfg(oracle)]
pub mod record;
pub mod refusal;
pub mod tokens;
pub mod windows;
#[cfg(oracle)]
pub mod withdrawn;

// The source names its own modules from the crate's root, so they stand here.
#[cfg(oracle)]
include!(concat!(env!("OUT_DIR"), "/root.rs"));
