//! The C names of the proved FM stereo core, as include/pescrondilu.h has them: the structs with
//! their layouts, the functions, and for each function with slices a safe wrapper, since C takes a
//! slice as a pointer and a length. The crate `pescrondilu` is for programs.

/// Asserts a struct's size and the offset of each of its fields.
macro_rules! layout {
    ($name:ty, $size:literal, $($field:ident $offset:literal),+) => {
        const _: () = {
            assert!(size_of::<$name>() == $size);
            $(assert!(std::mem::offset_of!($name, $field) == $offset);)+
        };
    };
}

pub mod decoder;
pub mod encoder;
pub mod numbers;
pub mod rack;
pub mod rds;
pub mod summary;

/// A block's answer: 0, or 100 and the cause's number; then the two lengths.
#[repr(C)]
#[derive(Clone, Copy, Debug, PartialEq, Eq)]
pub struct Code {
    pub code: u32,
    pub expected: usize,
    pub got: usize,
}

layout!(Code, 24, code 0, expected 8, got 16);

impl Code {
    /// The three numbers in a row.
    pub fn numbers(self) -> [usize; 3] {
        [self.code as usize, self.expected, self.got]
    }
}
