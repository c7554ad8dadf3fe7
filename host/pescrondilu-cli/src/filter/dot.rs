//! The inner product, where a filter spends its time.

/// Eight sums side by side, so that the compiler can use vectors. They are written out because a
/// loop over them is slow in a build without optimization.
pub fn dot(samples: &[f32], taps: &[f32]) -> f32 {
    let (samples, samples_rest) = samples.as_chunks::<8>();
    let (taps, taps_rest) = taps.as_chunks::<8>();
    let mut sums = [0.0f32; 8];
    let mut i = 0;
    while i < taps.len() {
        let (x, t) = (&samples[i], &taps[i]);
        sums[0] += x[0] * t[0];
        sums[1] += x[1] * t[1];
        sums[2] += x[2] * t[2];
        sums[3] += x[3] * t[3];
        sums[4] += x[4] * t[4];
        sums[5] += x[5] * t[5];
        sums[6] += x[6] * t[6];
        sums[7] += x[7] * t[7];
        i += 1;
    }
    let rest: f32 = samples_rest.iter().zip(taps_rest).map(|(x, t)| x * t).sum();
    sums.iter().sum::<f32>() + rest
}

#[cfg(test)]
mod tests {
    use super::*;

    #[test]
    fn every_length_is_summed_whole() {
        for n in 0..40 {
            let samples: Vec<f32> = (0..n).map(|i| i as f32).collect();
            let taps: Vec<f32> = (0..n).map(|i| (i % 3) as f32).collect();
            let sum: f32 = (0..n).map(|i| (i * (i % 3)) as f32).sum();
            assert_eq!(dot(&samples, &taps), sum);
        }
    }
}
