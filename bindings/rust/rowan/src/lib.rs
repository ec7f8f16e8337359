//! The names of rowan that read trees, for programs that use rowan beside rnix.

pub use rnix::syntax::*;
