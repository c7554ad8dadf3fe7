//! `pescrondilu decode` on made captures.

mod common;

use common::*;
use std::fs;

/// A column of a log, by its name.
fn column(log: &str, name: &str) -> Vec<f64> {
    let text = fs::read_to_string(log).unwrap();
    let mut lines = text.lines();
    let head: Vec<&str> = lines.next().unwrap().split(',').collect();
    let at = head.iter().position(|word| *word == name).unwrap();
    let field = |line: &str| line.split(',').nth(at).unwrap().parse().unwrap();
    lines.map(field).collect()
}

/// Decodes a capture to audio with further options.
fn decode(folder: &Folder, mpx: &[f32], options: &[&str]) -> (Said, Audio) {
    let (capture, audio) = (folder.file("mpx.wav"), folder.file("audio.wav"));
    write_wav(&capture, RATE, &[mpx]);
    let mut words = vec!["decode", &capture, "-o", &audio];
    words.extend(options);
    let said = run(&words).done();
    (said, read_audio(&audio))
}

#[test]
fn a_made_capture_locks_and_separates_in_both_formats() {
    let folder = Folder::new("separates");
    let mpx = Multiplex {
        seconds: 1.2,
        ..Multiplex::default()
    }
    .make();
    for format in ["f32", "q15"] {
        let (said, audio) = decode(&folder, &mpx, &["--format", format, "--deemphasis", "none"]);
        assert_eq!((audio.rate, audio.left.len()), (48_000, 57_600));
        let text = said.text();
        assert!(text.contains("1 change\n"), "{text}");
        assert!(
            text.contains("19000.0 Hz, amplitude 0.0900: within BS.450"),
            "{text}"
        );
        let apart = separation(&audio, 1_000.0, 0.5);
        println!("{format}: {apart:.1} dB at 1 kHz");
        assert!(apart > 60.0, "{format}: {apart}");
        let level = amplitude(&audio.left[24_000..], 1_000.0, 48_000);
        assert!((level - 0.45).abs() < 0.001, "{format}: {level}");
    }
}

#[test]
fn a_slower_loop_separates_better_and_all_tones_separate() {
    let folder = Folder::new("slower");
    for (natural, frequency, least) in [
        ("5", 1_000.0, 72.0),
        ("20", 100.0, 60.0),
        ("20", 15_000.0, 60.0),
    ] {
        let tones = [frequency, frequency];
        let mpx = Multiplex {
            tones,
            ..Multiplex::default()
        }
        .make();
        let (_, audio) = decode(
            &folder,
            &mpx,
            &["--natural", natural, "--deemphasis", "none"],
        );
        let apart = separation(&audio, frequency, 0.5);
        println!("{frequency} Hz, natural {natural} Hz: {apart:.1} dB");
        assert!(apart > least, "{frequency} Hz at {natural}: {apart}");
    }
}

#[test]
fn q15_is_beside_f32() {
    let folder = Folder::new("beside");
    let (right, tones) = (0.3, [1_000.0, 400.0]);
    let mpx = Multiplex {
        right,
        tones,
        seconds: 0.5,
        ..Multiplex::default()
    }
    .make();
    let (_, float) = decode(&folder, &mpx, &[]);
    let (_, integer) = decode(&folder, &mpx, &["--format", "q15"]);
    let sides = [(&float.left, &integer.left), (&float.right, &integer.right)];
    for (one, other) in sides {
        let pairs = one.iter().zip(other).skip(4_800);
        let worst = pairs.map(|(a, b)| (a - b).abs()).fold(0.0, f32::max);
        assert!(worst > 0.0 && worst < 0.002, "{worst}");
    }
}

/// Before the low-pass left goes up to three times this multiplex, which is 0.99 at its highest.
#[test]
fn a_full_capture_is_not_limited_in_q15() {
    let folder = Folder::new("full");
    let mpx = Multiplex {
        left: 1.0,
        seconds: 0.5,
        ..Multiplex::default()
    }
    .make();
    let (_, float) = decode(&folder, &mpx, &["--deemphasis", "none"]);
    let options = ["--format", "q15", "--deemphasis", "none"];
    let (_, integer) = decode(&folder, &mpx, &options);
    let sides = [(&float.left, &integer.left), (&float.right, &integer.right)];
    for (one, other) in sides {
        let pairs = one.iter().zip(other).skip(4_800);
        let worst = pairs.map(|(a, b)| (a - b).abs()).fold(0.0, f32::max);
        assert!(worst < 0.001, "{worst}");
    }
}

#[test]
fn it_locks_soon_and_audio_stands_in_its_place() {
    let folder = Folder::new("soon");
    let mpx = Multiplex {
        right: 0.5,
        ..Multiplex::default()
    }
    .make();
    let (said, audio) = decode(&folder, &mpx, &["--deemphasis", "none"]);
    let text = said.text();
    let line = text
        .lines()
        .find(|line| line.contains("s  stereo"))
        .unwrap();
    let at: f64 = line.split_whitespace().next().unwrap().parse().unwrap();
    println!("stereo after {at} s");
    assert!(at > 0.02 && at < 0.05, "{line}");
    // no delay: the tone is in phase with the one that was put in
    let wanted = tone(1_000.0, 48_000, 1.0, 0.45);
    let pairs = audio.left.iter().zip(&wanted).skip(12_000).take(30_000);
    let worst = pairs.map(|(a, b)| (a - b).abs()).fold(0.0, f32::max);
    assert!(worst < 0.002, "{worst}");
}

#[test]
fn the_pilot_s_frequency_is_found() {
    let folder = Folder::new("offset");
    let (pilot_hz, pilot) = (19_003.0, 0.12);
    let mpx = Multiplex {
        pilot_hz,
        pilot,
        ..Multiplex::default()
    }
    .make();
    let log = folder.file("log.csv");
    let (said, _) = decode(&folder, &mpx, &["--log", &log]);
    let text = said.text();
    assert!(text.contains("19003.0 Hz, amplitude 0.1199"), "{text}");
    let outside = "outside BS.450 (18998 to 19002 Hz, 0.08 to 0.1)";
    assert!(text.contains(outside), "{text}");
    let offsets = column(&log, "offset_hz");
    let offset = offsets.last().unwrap();
    assert!((offset - 3.0).abs() < 0.1, "{offset}");
}

/// A pilot of a good amplitude at this frequency, as both cores report it.
fn told_of_pilot(folder: &Folder, pilot_hz: f64) -> [String; 2] {
    let mpx = Multiplex {
        pilot_hz,
        ..Multiplex::default()
    }
    .make();
    ["f32", "q15"].map(|format| decode(folder, &mpx, &["--format", format]).0.text())
}

#[test]
fn the_verdict_reads_the_frequency() {
    let folder = Folder::new("verdict");
    let outside = "outside BS.450 (18998 to 19002 Hz)\n";
    for (pilot_hz, verdict) in [
        (18_998.1, "within BS.450"),
        (19_001.9, "within BS.450"),
        (18_997.9, outside),
        (19_002.1, outside),
    ] {
        let words = format!("{pilot_hz} Hz, amplitude 0.0900: {verdict}");
        for text in told_of_pilot(&folder, pilot_hz) {
            assert!(text.contains(&words), "{words} in\n{text}");
        }
    }
}

#[test]
fn a_pilot_beyond_the_integrator_s_limit_is_named() {
    let folder = Folder::new("limit");
    let outside = "outside BS.450 (18998 to 19002 Hz)";
    let at = |hz: &str| format!("A tone stands at {hz} Hz, amplitude 0.0900: {outside}\n");
    let limit = format!("{outside};\n{:13}the integrator stands at its limit", "");
    for (pilot_hz, words) in [
        (18_500.0, at("18500")),
        (19_300.0, at("19300")),
        (19_060.0, format!("19050.0 Hz, amplitude 0.0827: {limit}")),
    ] {
        for text in told_of_pilot(&folder, pilot_hz) {
            assert!(text.contains(&words), "{words} in\n{text}");
            assert!(!text.contains("--gain"), "{text}");
        }
    }
}

#[test]
fn a_burst_of_nan_passes() {
    let folder = Folder::new("burst");
    for (format, pattern) in [
        ("f32", 0xFFC0_0000u32),
        ("f32", 0x7F80_0000),
        ("q15", 0xFFC0_0000),
    ] {
        let mut mpx = Multiplex::default().make();
        mpx[96_000..97_000].fill(f32::from_bits(pattern));
        let (said, audio) = decode(&folder, &mpx, &["--format", format]);
        let text = said.text();
        assert!(text.contains("1000 samples of the capture"), "{text}");
        assert_eq!(off_quick_path(&text), None);
        assert!(text.contains("1 change\n"), "still stereo: {text}");
        match format {
            "f32" => the_last_one_is_told(&text, 96_000, 1_000),
            _ => assert!(!text.contains("of the pilot"), "{text}"),
        }
        assert!(audio.left.iter().chain(&audio.right).all(|x| x.is_finite()));
        let later = Audio {
            left: audio.left[26_400..].to_vec(),
            right: audio.right[26_400..].to_vec(),
            ..audio
        };
        assert!(
            separation(&later, 1_000.0, 0.0) > 50.0,
            "{format} {pattern:x}"
        );
    }
}

/// The filtered pilot is not finite a little longer than the capture, to both sides alike.
fn the_last_one_is_told(text: &str, first: usize, samples: usize) {
    let head = format!("{samples} samples of the capture, ");
    let rest = text.split(&head).nth(1).unwrap();
    let (pilot, rest) = rest.split_once(" of the pilot, the last at ").unwrap();
    let more = pilot.parse::<usize>().unwrap() - samples;
    assert!(more > 0 && more.is_multiple_of(2), "{text}");
    let last = first + samples - 1 + more / 2;
    let seconds = format!("{:.3} s; they move", last as f64 / f64::from(RATE));
    assert!(rest.starts_with(&seconds), "{seconds} in {text}");
}

/// How many phase corrections left the quick path, by the report; none where it is silent.
fn off_quick_path(text: &str) -> Option<u32> {
    let line = text.lines().find(|line| line.contains("quick path"))?;
    let words = line.strip_prefix("  loop       ").unwrap();
    let (count, rest) = words.split_once(' ').unwrap();
    assert_eq!(rest, "of 192000 phase corrections left the quick path");
    Some(count.parse().unwrap())
}

#[test]
fn a_capture_that_leaves_the_quick_path_is_told() {
    let folder = Folder::new("quick");
    let log = folder.file("log.csv");
    let good = Multiplex::default().make();
    let mut large = good.clone();
    large[96_000..96_100].fill(1e20);
    let first_line = || {
        let text = fs::read_to_string(&log).unwrap();
        text.lines().next().unwrap().to_string()
    };
    let (said, _) = decode(&folder, &good, &["--log", &log]);
    assert_eq!(off_quick_path(&said.text()), None);
    let head = first_line();

    let (said, _) = decode(&folder, &large, &[]);
    let count = off_quick_path(&said.text()).unwrap();
    assert!((100..2_000).contains(&count), "{}", said.text());
    // the log's call counts the same, and its columns stay
    let (said, _) = decode(&folder, &large, &["--log", &log]);
    assert_eq!(off_quick_path(&said.text()), Some(count));
    assert_eq!(first_line(), head);
    let (said, _) = decode(&folder, &large, &["--format", "q15"]);
    assert_eq!(off_quick_path(&said.text()), None);
}

#[test]
fn without_deemphasis_a_nan_is_gone_after_the_filters() {
    let folder = Folder::new("gone");
    let mut mpx = Multiplex {
        seconds: 0.5,
        ..Multiplex::default()
    }
    .make();
    mpx[48_000] = f32::NAN;
    let (_, audio) = decode(&folder, &mpx, &["--deemphasis", "none"]);
    let bad: Vec<usize> = (0..audio.left.len())
        .filter(|&i| !audio.left[i].is_finite())
        .collect();
    assert!(bad.contains(&12_000));
    assert!(bad[0] > 11_900 && bad[bad.len() - 1] < 12_100, "{bad:?}");
}

#[test]
fn a_mono_capture_stays_mono() {
    let folder = Folder::new("mono");
    let (pilot, right) = (0.0, 0.3);
    let mpx = Multiplex {
        pilot,
        right,
        seconds: 0.5,
        ..Multiplex::default()
    }
    .make();
    let (said, audio) = decode(&folder, &mpx, &[]);
    assert!(
        said.text()
            .contains("stereo for 0.000 s of 0.500 s, 0 changes")
    );
    assert!(
        said.text().contains("no pilot was found"),
        "{}",
        said.text()
    );
    assert_eq!(audio.left, audio.right);
}

#[test]
fn a_capture_scaled_down_says_what_to_set_and_that_helps() {
    let folder = Folder::new("scaled");
    let mpx: Vec<f32> = Multiplex::default()
        .make()
        .iter()
        .map(|x| 0.39 * x)
        .collect();
    let (said, _) = decode(&folder, &mpx, &[]);
    let text = said.text();
    assert!(text.contains("the level never reached 0.0200"), "{text}");
    assert!(
        text.contains("set --level 0.0351, or --gain 2.56"),
        "{text}"
    );
    for option in [["--level", "0.0351"], ["--gain", "2.56"]] {
        let (said, _) = decode(&folder, &mpx, &option);
        assert!(
            said.text().contains("1 change\n"),
            "{option:?}: {}",
            said.text()
        );
    }
}

#[test]
fn a_level_that_becomes_nan_is_told() {
    let folder = Folder::new("nan");
    // the level climbs to half of it; then the pilot turns over, and the step down overflows
    let mut pilot = tone(19_000.0, RATE, 0.5, 3.3e38);
    pilot[60_000..].iter_mut().for_each(|x| *x = -*x);
    let (said, _) = decode(&folder, &pilot, &[]);
    let text = said.text();
    assert!(text.contains("decision (mono)"), "{text}");
    assert!(
        text.contains("NaN since") && text.contains("holds until a reset"),
        "{text}"
    );
}

#[test]
fn every_usual_encoding_is_decoded() {
    let folder = Folder::new("encodings");
    let mpx = Multiplex {
        seconds: 0.3,
        ..Multiplex::default()
    }
    .make();
    let whole = |scale: f64| move |x: &f32| (f64::from(*x) * scale).round() as i32;
    let pcm8: Vec<u8> = mpx.iter().map(|x| (whole(128.0)(x) + 128) as u8).collect();
    let pcm24 = mpx
        .iter()
        .flat_map(|x| whole(8_388_608.0)(x).to_le_bytes()[..3].to_vec());
    let pcm32 = mpx
        .iter()
        .flat_map(|x| whole(2_147_483_648.0)(x).to_le_bytes());
    let f64s = mpx.iter().flat_map(|x| f64::from(*x).to_le_bytes());
    for (name, bytes) in [
        ("PCM 8 bits", wav(1, 8, 1, RATE, &pcm8)),
        ("PCM 16 bits", wav(1, 16, 1, RATE, &s16_bytes(&mpx))),
        (
            "PCM 24 bits",
            wav(1, 24, 1, RATE, &pcm24.collect::<Vec<u8>>()),
        ),
        (
            "PCM 32 bits",
            wav(1, 32, 1, RATE, &pcm32.collect::<Vec<u8>>()),
        ),
        ("f64", wav(3, 64, 1, RATE, &f64s.collect::<Vec<u8>>())),
    ] {
        let capture = folder.file("capture.wav");
        fs::write(&capture, bytes).unwrap();
        let text = run(&["decode", &capture]).done().text();
        assert!(
            text.contains(&format!("0.300 s at 192000 Hz ({name})")),
            "{text}"
        );
        assert!(
            text.contains("1 change\n") && text.contains("within BS.450"),
            "{name}: {text}"
        );
    }
}

#[test]
fn standard_input_takes_wav_and_raw() {
    let mpx = Multiplex {
        seconds: 0.3,
        ..Multiplex::default()
    }
    .make();
    let raw = ["--rate", "192000", "--raw"];
    for (options, bytes) in [
        (vec![], wav(3, 32, 1, RATE, &f32_bytes(&mpx))),
        ([&raw[..], &["f32"]].concat(), f32_bytes(&mpx)),
        ([&raw[..], &["s16"]].concat(), s16_bytes(&mpx)),
    ] {
        let said = run_with(&[vec!["decode", "-"], options].concat(), &bytes).done();
        let text = said.text();
        assert!(
            text.starts_with("standard input: 0.300 s at 192000 Hz"),
            "{text}"
        );
        assert!(text.contains("1 change\n"), "{text}");
    }
}

#[test]
fn raw_audio_goes_to_standard_output_and_the_report_aside() {
    let folder = Folder::new("stdout");
    let mpx = Multiplex {
        seconds: 0.3,
        ..Multiplex::default()
    }
    .make();
    let (_, audio) = decode(&folder, &mpx, &[]);
    let capture = folder.file("mpx.wav");
    let said = run(&["decode", &capture, "-o", "-"]).done();
    let both: Vec<f32> = audio
        .left
        .iter()
        .zip(&audio.right)
        .flat_map(|(l, r)| [*l, *r])
        .collect();
    assert_eq!(floats(&said.out), both);
    assert!(
        said.err.contains("standard output, raw: 48000 Hz"),
        "{}",
        said.err
    );
    let said = run(&["decode", &capture, "-o", "-", "--samples", "s16"]).done();
    assert_eq!(said.out.len(), both.len() * 2);
}

#[test]
fn sixteen_bits_and_other_rates() {
    let folder = Folder::new("rates");
    let (capture, audio) = (folder.file("mpx.wav"), folder.file("audio.wav"));
    // the same samples at another rate: the pilot is elsewhere, so it is mono, but it is decoded
    write_wav(
        &capture,
        250_000,
        &[&Multiplex {
            seconds: 0.2,
            ..Multiplex::default()
        }
        .make()],
    );
    let said = run(&["decode", &capture, "-o", &audio, "--samples", "s16"]).done();
    assert!(
        said.text().contains("50000 Hz (one sample in 5), s16"),
        "{}",
        said.text()
    );
    let read = read_audio(&audio);
    assert_eq!((read.rate, read.left.len()), (50_000, 7_680));
    // the header may be wrong
    let said = run(&["decode", &capture, "--rate", "192000"]).done();
    assert!(said.text().contains("1 change\n"), "{}", said.text());
}

#[test]
fn one_of_two_channels_is_chosen() {
    let folder = Folder::new("channels");
    let capture = folder.file("two.wav");
    let mpx = Multiplex {
        seconds: 0.3,
        ..Multiplex::default()
    }
    .make();
    write_wav(&capture, RATE, &[&vec![0.0; mpx.len()], &mpx]);
    run(&["decode", &capture]).refused(1, "has 2 channels, and a multiplex has one");
    run(&["decode", &capture, "--channel", "3"]).refused(1, "no channel 3");
    let text = run(&["decode", &capture, "--channel", "2"]).done().text();
    assert!(text.contains("1 change\n"), "{text}");
}

#[test]
fn a_long_history_is_thinned_out_in_the_plot_and_whole_in_the_log() {
    let folder = Folder::new("thin");
    let (log, plot) = (folder.file("log.csv"), folder.file("plot.svg"));
    let mpx = Multiplex {
        seconds: 0.5,
        ..Multiplex::default()
    }
    .make();
    decode(
        &folder,
        &mpx,
        &["--period", "0.05", "--log", &log, "--plot", &plot],
    );
    assert_eq!(fs::read_to_string(log).unwrap().lines().count(), 1 + 9_600);
    let plot = fs::read_to_string(plot).unwrap();
    assert!(plot.len() < 200_000, "{}", plot.len());
}

/// Every sample of the capture is in one period of the log, and the last one is as long as it went.
#[test]
fn the_log_has_the_figures_of_each_period() {
    let folder = Folder::new("figures");
    let log = folder.file("log.csv");
    let mpx = Multiplex {
        seconds: 0.75,
        ..Multiplex::default()
    }
    .make();
    assert_eq!(mpx.len(), 144_000);
    for format in ["f32", "q15"] {
        let (said, _) = decode(&folder, &mpx, &["--log", &log, "--format", format]);
        let [stereo, mono, changes, difference] = [
            "stereo_samples",
            "mono_samples",
            "changes",
            "difference_largest",
        ]
        .map(|name| column(&log, name));
        let samples: Vec<f64> = stereo.iter().zip(&mono).map(|(s, m)| s + m).collect();
        assert_eq!(samples[..7], [19_200.0; 7]);
        assert_eq!(samples[7..], [9_600.0]);
        assert_eq!(changes.iter().sum::<f64>(), 1.0);
        // mono until it locks, then stereo throughout
        assert_eq!(stereo[1..7], [19_200.0; 6]);
        assert_eq!(stereo[7], 9_600.0);
        // the report looks every millisecond, the core at every sample
        let text = said.text();
        let (_, rest) = text.split_once("stereo for ").unwrap();
        let told: f64 = rest.split(' ').next().unwrap().parse().unwrap();
        let exact = stereo.iter().sum::<f64>() / 192_000.0;
        assert!((0.0..0.0012).contains(&(told - exact)), "{told} {exact}");
        // The tone of 0.45 is on the left, and the difference before its low-pass is the multiplex
        // times a sine; both formats are at the capture's scale.
        let near = |x: &f64| (0.4..0.55).contains(x);
        assert!(difference[1..].iter().all(near), "{format}: {difference:?}");
        let peak = mpx.iter().fold(0.0, |m: f32, x| m.max(x.abs()));
        assert!(difference.iter().all(|x| *x <= f64::from(peak) + 1e-4));
    }
}

/// With a log the core is asked for sum, difference and figures, else for left and right.
#[test]
fn the_audio_is_the_same_with_a_log() {
    let folder = Folder::new("same");
    let log = folder.file("log.csv");
    let mut mpx = Multiplex {
        right: 0.3,
        seconds: 0.4,
        ..Multiplex::default()
    }
    .make();
    mpx[40_000..40_020].fill(f32::from_bits(0xFFC0_0000));
    mpx[50_000] = f32::INFINITY;
    for format in ["f32", "q15"] {
        for deemphasis in ["50", "none"] {
            let options = ["--format", format, "--deemphasis", deemphasis];
            let audio = |more: &[&str]| {
                let (said, _) = decode(&folder, &mpx, &[&options[..], more].concat());
                (fs::read(folder.file("audio.wav")).unwrap(), said.text())
            };
            let without = audio(&[]);
            for period in ["0.02", "0.7", "100", "3600000"] {
                let with = audio(&["--log", &log, "--period", period]);
                assert!(with.0 == without.0, "{format} {deemphasis} {period}");
                assert_eq!(with.1, audio(&["--period", period]).1);
            }
        }
    }
}

/// A pilot that turns over 4000 times a second, in a receiver whose thresholds are near 0: the lamp
/// changes several times in a millisecond. The report cannot see that, and the log counts it.
#[test]
fn the_log_counts_changes_within_a_millisecond() {
    let folder = Folder::new("flicker");
    let log = folder.file("log.csv");
    let [carrier, slow] = [19_000.0, 2_000.0].map(|hz| tone(hz, RATE, 0.5, 1.0));
    let mpx: Vec<f32> = carrier.iter().zip(slow).map(|(c, s)| 0.9 * c * s).collect();
    for format in ["f32", "q15"] {
        let options = ["--level", "0.0005", "--natural", "0.05", "--format", format];
        let (said, _) = decode(&folder, &mpx, &[&options[..], &["--log", &log]].concat());
        let changes: f64 = column(&log, "changes").iter().sum();
        assert!((1_800.0..2_000.0).contains(&changes), "{format}: {changes}");
        let text = said.text();
        let (_, rest) = text.split_once(" s, ").unwrap();
        let seen: f64 = rest.split(' ').next().unwrap().parse().unwrap();
        println!("{format}: {changes} changes, of which the report saw {seen}");
        assert!(seen < 20.0, "{text}");
    }
}

#[test]
fn a_period_that_the_core_cannot_count_is_refused() {
    let folder = Folder::new("longest");
    let (capture, log) = (folder.file("mpx.wav"), folder.file("log.csv"));
    write_wav(&capture, RATE, &[&[0.0; 100]]);
    let words = [
        "decode", &capture, "--rate", "4000000", "--period", "1080000",
    ];
    run(&words).done();
    run(&[&words[..], &["--log", &log]].concat()).refused(2, "a period of the log lasts 1073 s");
    assert_eq!(folder.names(), ["mpx.wav"]);
}
