//! The original's modules `ast`, `source` and `necessity` as they are, and `probed`, a copy of `necessity` with `probe.rs` behind it.
//! See build.rs.

include!(concat!(env!("OUT_DIR"), "/modules.rs"));
