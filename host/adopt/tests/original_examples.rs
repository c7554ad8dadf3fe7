//! The original's own examples inside sdrk-core, with `Proved` in the place of `Fallback`.

#[path = "../../pescrondilu/tests/common/examples.rs"]
mod examples;

use std::path::Path;

use examples::Suite;

#[test]
fn pass_with_the_backend_changed() {
    let suite = Suite {
        files: &["kernels/stereo.rs", "kernels/mix.rs"],
        left_out: &["Rotate", "Oscillate"],
        krate: (
            "sdrk_core",
            "sdrk-core",
            concat!(env!("CARGO_MANIFEST_DIR"), "/core"),
        ),
        backend: "Proved",
        folder: Path::new(env!("CARGO_TARGET_TMPDIR")).join("original_examples"),
    };
    suite.run();
}
