//! The original's own examples with the crate's name changed and nothing else.

#[path = "common/examples.rs"]
mod examples;

use std::path::Path;

use examples::Suite;

#[test]
fn pass_with_the_name_of_the_crate_changed() {
    let suite = Suite {
        files: &["kernels/stereo.rs", "kernels/mix.rs", "types.rs", "num.rs"],
        left_out: &[
            "Rotate",
            "Oscillate",
            "bytemuck",
            "cq15_mul",
            "Acc64",
            "sqrt_f32",
            "sqrt_f64",
            "isqrt_u64",
        ],
        krate: ("pescrondilu", "pescrondilu", env!("CARGO_MANIFEST_DIR")),
        // The crate has this name for `Proved`.
        backend: "Fallback",
        folder: Path::new(env!("CARGO_TARGET_TMPDIR")).join("original_examples"),
    };
    suite.run();
}
