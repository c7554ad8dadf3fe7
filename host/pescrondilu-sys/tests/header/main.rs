//! That include/pescrondilu.h, the archive, the declarations of this crate and the sources of the C
//! names in crates/c_* agree, and that C and C++ programs compile, link and run.

mod agreement;
mod compile;
mod names;
mod sources;
mod support;
