// A receiver's stereo stage as one writes it for sdrk. main.rs builds this text twice: `sdr` is
// sdrk_core the first time and pescrondilu the second time.

use sdr::kernels::stereo::{StereoMatrix, StereoPll, StereoPllState};
use sdr::{C32, Fallback, Rate, Result};

/// Multiplex signal and pilot to left and right.
pub struct Stage {
    pll: StereoPllState<f32>,
    decoded: Vec<C32>,
    audio: Vec<C32>,
}

impl Stage {
    pub fn new(rate_hz: u64) -> Result<Stage> {
        Ok(Stage {
            pll: StereoPllState::new(19_000.0, 20.0, 0.1, Rate::hz(rate_hz)?)?,
            decoded: Vec::new(),
            audio: Vec::new(),
        })
    }

    pub fn block(&mut self, mpx: &[f32], pilot: &[f32]) -> Result<&[C32]> {
        self.decoded.resize(mpx.len(), C32::default());
        self.audio.resize(mpx.len(), C32::default());
        Fallback.stereo_pll(&mut self.pll, mpx, pilot, &mut self.decoded)?;
        // A real receiver has its low-pass here.
        Fallback.stereo_matrix(&self.decoded, &mut self.audio)?;
        Ok(&self.audio)
    }

    pub fn lamp(&self) -> bool {
        self.pll.is_stereo()
    }
}
