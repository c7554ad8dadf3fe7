//! `pescrondilu demo` leaves its files, and the lamp's history in them is right.

mod common;

use common::{Folder, read_audio, run};
use std::fs;

/// A line of the log.
struct Line {
    start: f64,
    end: f64,
    least: f64,
    highest: f64,
    stereo: bool,
    changes: u64,
    bad: u64,
    bad_pilot: u64,
    stereo_samples: u64,
    mono_samples: u64,
    difference: f64,
}

fn read_log(path: &str) -> Vec<Line> {
    let text = fs::read_to_string(path).unwrap();
    let mut lines = text.lines();
    let head = lines.next().unwrap();
    assert!(head.starts_with("start_s,end_s,level_least,level_highest,lamp,changes,non_finite"));
    assert!(head.ends_with(",stereo_samples,mono_samples,difference_largest"));
    let line = |line: &str| {
        let fields: Vec<&str> = line.split(',').collect();
        assert_eq!(fields.len(), head.split(',').count());
        let number = |at: usize| fields[at].parse::<f64>().unwrap();
        Line {
            start: number(0),
            end: number(1),
            least: number(2),
            highest: number(3),
            stereo: fields[4] == "stereo",
            changes: number(5) as u64,
            bad: number(6) as u64,
            bad_pilot: number(7) as u64,
            stereo_samples: number(9) as u64,
            mono_samples: number(10) as u64,
            difference: number(11),
        }
    };
    lines.map(line).collect()
}

#[test]
fn it_leaves_its_files_and_a_right_history() {
    let folder = Folder::new("demo");
    let said = run(&["demo", folder.path().to_str().unwrap()]).done();
    assert_eq!(
        folder.names(),
        [
            "audio.wav",
            "lamp.svg",
            "log.csv",
            "multiplex.wav",
            "programme.wav"
        ]
    );
    history_is_right(&read_log(&folder.file("log.csv")));
    audio_is_finite(&folder);
    let plot = fs::read_to_string(folder.file("lamp.svg")).unwrap();
    for words in [
        "<svg",
        "on 0.0200",
        "off 0.0150",
        "stereo",
        "mono",
        "NaN or infinity",
    ] {
        assert!(plot.contains(words), "{words}");
    }
    let text = said.text();
    assert!(
        text.contains("7 changes\n") && text.contains("3840 samples of the capture"),
        "{text}"
    );
    assert!(text.contains("amplitude 0.0900: within BS.450"), "{text}");
    assert_eq!(
        text.matches(folder.path().to_str().unwrap()).count(),
        5,
        "{text}"
    );
}

/// The story that the demo tells: a fade, a retune, a pilot that goes and comes back.
fn history_is_right(log: &[Line]) {
    assert_eq!(log.len(), 600);
    assert!(
        log.windows(2)
            .all(|two| (two[0].end - two[1].start).abs() < 1e-9)
    );
    for (at, stereo) in [
        (0.2, true),
        (2.4, true),
        (3.6, false),
        (5.0, true),
        (6.0, true),
        (6.3, false),
        (7.5, true),
        (9.8, false),
        (11.0, true),
    ] {
        let line = log.iter().find(|line| line.end > at).unwrap();
        assert_eq!(line.stereo, stereo, "at {at} s");
    }
    assert_eq!(log.iter().map(|line| line.changes).sum::<u64>(), 7);
    lamp_follows_the_level(log);
    figures_follow_the_lamp(log);
    let bad: Vec<&Line> = log.iter().filter(|line| line.bad > 0).collect();
    assert_eq!((bad.len(), bad[0].bad, bad[0].start), (1, 3_840, 6.0));
    // the filtered pilot is not finite a little longer, to both sides
    let pilot: u64 = log.iter().map(|line| line.bad_pilot).sum();
    assert!((3_841..4_500).contains(&pilot), "{pilot}");
}

/// No lamp is on below `off`, none is off above `on`, and it changes only where the level crosses.
fn lamp_follows_the_level(log: &[Line]) {
    for line in log.iter().filter(|line| line.changes == 0) {
        assert!(!line.stereo || line.least >= 0.015, "{}", line.start);
        assert!(line.stereo || line.highest < 0.02, "{}", line.start);
    }
}

/// Where the lamp did not change, all samples are of its kind, and in mono there is no difference.
fn figures_follow_the_lamp(log: &[Line]) {
    for line in log {
        assert_eq!(line.stereo_samples + line.mono_samples, 3_840);
        let (mono, at) = (line.stereo_samples == 0, line.start);
        assert_eq!(line.difference == 0.0, mono, "{at}");
        match (line.changes, line.stereo) {
            (0, true) => assert_eq!(line.mono_samples, 0, "{at}"),
            (0, false) => assert!(mono, "{at}"),
            _ => assert!(line.stereo_samples > 0 && line.mono_samples > 0, "{at}"),
        }
        // NaN is passed over, and the retune has infinities too
        assert_eq!(line.difference.is_infinite(), line.bad > 0, "{at}");
    }
}

fn audio_is_finite(folder: &Folder) {
    let audio = read_audio(&folder.file("audio.wav"));
    assert_eq!(
        (audio.rate, audio.left.len(), audio.right.len()),
        (48_000, 576_000, 576_000)
    );
    assert!(audio.left.iter().chain(&audio.right).all(|x| x.is_finite()));
    // the tunes differ: left and right are not the same while it is stereo, and are while mono
    let apart = |from: usize, to: usize| {
        let pairs = audio.left[from..to].iter().zip(&audio.right[from..to]);
        pairs.fold(0.0f32, |m, (l, r)| m.max((l - r).abs()))
    };
    assert!(apart(48_000, 96_000) > 0.3);
    assert_eq!(apart(470_400, 480_000), 0.0);
}
