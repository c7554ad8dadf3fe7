//! `pescrondilu encode`, alone and with `decode` after it.

mod common;

use common::*;
use std::fs;

/// Two groups of version A and one of version B, with what a file may have beside them.
const GROUPS: &str = "\
# programme D318
D318 0408 E0CD 5065   # 0A
d318\t0409\te0cd\t7363

D318 3C0B D318 726F
";
const WORDS: [[u16; 4]; 3] = [
    [0xD318, 0x0408, 0xE0CD, 0x5065],
    [0xD318, 0x0409, 0xE0CD, 0x7363],
    [0xD318, 0x3C0B, 0xD318, 0x726F],
];

/// A file of groups.
fn groups(folder: &Folder, text: &str) -> String {
    let name = folder.file("groups.txt");
    fs::write(&name, text).unwrap();
    name
}

/// Encodes left and right, decodes what comes out, and gives the audio.
fn through(folder: &Folder, rate: u32, sides: [&[f32]; 2], more: [&[&str]; 2]) -> (String, Audio) {
    let [audio, mpx, out] = ["in.wav", "mpx.wav", "out.wav"].map(|name| folder.file(name));
    write_wav(&audio, rate, &sides);
    run(&[&["encode", &audio, "-o", &mpx], more[0]].concat()).done();
    let said = run(&[&["decode", &mpx, "-o", &out], more[1]].concat()).done();
    (said.text(), read_audio(&out))
}

#[test]
fn encode_then_decode_separates_in_both_formats() {
    let folder = Folder::new("through");
    let (left, right) = (tone(1_000.0, 48_000, 1.2, 0.5), vec![0.0; 57_600]);
    for format in ["f32", "q15"] {
        let options: [&[&str]; 2] = [&[], &["--format", format]];
        let (text, audio) = through(&folder, 48_000, [&left, &right], options);
        assert!(text.contains("amplitude 0.0900: within BS.450"), "{text}");
        let apart = separation(&audio, 1_000.0, 0.5);
        println!("encoder into decoder, {format}: {apart:.1} dB at 1 kHz");
        assert!(apart > 60.0, "{format}: {apart}");
        let back = amplitude(&audio.left[24_000..], 1_000.0, 48_000);
        assert!((back - 0.45).abs() < 0.001, "{back}");
    }
}

#[test]
fn the_pilot_is_told_with_its_verdict() {
    let folder = Folder::new("pilot");
    let (audio, mpx) = (folder.file("in.wav"), folder.file("mpx.wav"));
    write_wav(&audio, 48_000, &[&tone(1_000.0, 48_000, 0.1, 0.5)]);
    for (pilot, words) in [
        (
            "0.08",
            "pilot      19000.0 Hz, amplitude 0.0800: within BS.450",
        ),
        (
            "0.1",
            "pilot      19000.0 Hz, amplitude 0.1000: within BS.450",
        ),
        ("0.101", "amplitude 0.1010: outside BS.450 (0.08 to 0.1 of"),
        ("0", "amplitude 0.0000: outside BS.450 (0.08 to 0.1 of"),
    ] {
        let said = run(&["encode", &audio, "-o", &mpx, "--pilot", pilot]).done();
        assert!(said.text().contains(words), "{}", said.text());
    }
}

#[test]
fn rds_leaves_the_separation_in_both_formats() {
    let folder = Folder::new("beside-rds");
    let groups = groups(&folder, GROUPS);
    let (left, right) = (tone(1_000.0, 48_000, 1.2, 0.5), vec![0.0; 57_600]);
    for format in ["f32", "q15"] {
        let apart = |more: &[&str]| {
            let options: [&[&str]; 2] = [more, &["--format", format]];
            let (text, audio) = through(&folder, 48_000, [&left, &right], options);
            assert!(text.contains("amplitude 0.0900: within BS.450"), "{text}");
            separation(&audio, 1_000.0, 0.5)
        };
        let (without, with) = (apart(&[]), apart(&["--rds", &groups]));
        println!("{format}: {without:.1} dB at 1 kHz, {with:.1} dB with RDS");
        assert!((with - without).abs() < 1.0, "{format}: {without} {with}");
    }
}

/// The difference has a tone at 52 kHz, and RDS begins at 54.6 kHz.
#[test]
fn rds_comes_back_bit_for_bit() {
    let folder = Folder::new("rds");
    let groups = groups(&folder, GROUPS);
    let (audio, mpx) = (folder.file("in.wav"), folder.file("mpx.wav"));
    let (left, right) = (
        tone(14_000.0, 48_000, 0.5, 0.1),
        tone(400.0, 48_000, 0.5, 0.5),
    );
    write_wav(&audio, 48_000, &[&left, &right]);
    for rate in ["120000", "171007", "192000", "250000"] {
        let words = ["encode", &audio, "-o", &mpx, "--rate", rate];
        let text = run(&[&words[..], &["--rds", &groups]].concat()).done();
        let line = "rds        3 groups in turn, 5 sent, 1187.5 bit/s, level 0.03\n";
        assert!(text.text().contains(line), "{}", text.text());
        let bits = rds::demodulate(&read_multiplex(&mpx), rate.parse().unwrap());
        let found = rds::words(&bits);
        assert_eq!(found.len(), 5, "whole groups");
        for (at, words) in found.into_iter().enumerate() {
            assert_eq!(words, WORDS[at % 3], "group {at} at {rate} Hz");
        }
        // with the filter at both ends no bit reaches into another
        let sizes = bits[8..].iter().map(|x| x.abs());
        let (least, most) = sizes.fold((1.0, 0.0), |(a, b), x| (x.min(a), x.max(b)));
        println!("{rate} Hz: bits of {least:.5} to {most:.5}");
        assert!(least > 0.99 * most, "{rate} Hz: {least} {most}");
    }
}

#[test]
fn the_rds_level_is_its_peak_deviation() {
    let folder = Folder::new("rds-level");
    let groups = groups(&folder, GROUPS);
    let (audio, mpx) = (folder.file("in.wav"), folder.file("mpx.wav"));
    let left = tone(1_000.0, 48_000, 1.0, 0.5);
    write_wav(&audio, 48_000, &[&left]);
    let encoded = |more: &[&str]| {
        run(&[&["encode", &audio, "-o", &mpx], more].concat()).done();
        read_multiplex(&mpx)
    };
    let without = encoded(&[]);
    for level in ["0.03", "0.2"] {
        let with = encoded(&["--rds", &groups, "--rds-level", level]);
        let pairs = with.iter().zip(&without);
        let most = pairs.map(|(a, b)| (a - b).abs()).fold(0.0, f32::max);
        let level: f32 = level.parse().unwrap();
        assert!(
            most > 0.97 * level && most < level + 1e-6,
            "{level}: {most}"
        );
    }
    let silent = encoded(&["--rds", &groups, "--rds-level", "0"]);
    assert_eq!(silent, without);
}

#[test]
fn wrong_groups_are_refused_before_any_work() {
    let folder = Folder::new("wrong-groups");
    let (audio, mpx) = (folder.file("in.wav"), folder.file("mpx.wav"));
    write_wav(&audio, 48_000, &[&[0.0; 100]]);
    let encode = |groups: &str| run(&["encode", &audio, "-o", &mpx, "--rds", groups]);
    for (text, reason) in [
        ("", "has no groups"),
        (
            "0000 0000 0000 0000\n\n12 # short\n",
            "line 3: 12 is no word",
        ),
        ("0000 0000 0000\n", "line 1: a group has four words, not 3"),
        (
            "#\n0001 0800 0002 0000\n",
            "line 2: the core refused the group: cause 19: word three",
        ),
    ] {
        let groups = groups(&folder, text);
        encode(&groups).refused(1, &format!("{groups}: {reason}"));
    }
    fs::write(folder.file("groups.txt"), [0xFF, 0xFE]).unwrap();
    encode(&folder.file("groups.txt")).refused(1, "is no text");
    encode(&folder.file("none.txt")).refused(1, "there is no such file");
    assert_eq!(folder.names(), ["groups.txt", "in.wav"]);
    let groups = groups(&folder, GROUPS);
    run(&["encode", &audio, "-o", &groups, "--rds", &groups]).refused(2, "written over");
    let level = ["--rds", &groups, "--rds-level", "0.3"];
    run(&[&["encode", &audio, "-o", &mpx], &level[..]].concat()).refused(2, "from 0 to 0.2");
    assert_eq!(fs::read_to_string(&groups).unwrap(), GROUPS);
}

#[test]
fn the_audio_comes_back_in_its_place_and_shape() {
    let folder = Folder::new("shape");
    let mix = |tones: [f64; 3]| -> Vec<f32> {
        let each = tones.map(|f| tone(f, 48_000, 0.6, 0.1));
        (0..28_800)
            .map(|i| each[0][i] + each[1][i] + each[2][i])
            .collect()
    };
    let sides = [
        mix([100.0, 3_000.0, 14_000.0]),
        mix([400.0, 1_000.0, 9_000.0]),
    ];
    for emphasis in ["50", "75", "none"] {
        let options: [&[&str]; 2] = [&["--preemphasis", emphasis], &["--deemphasis", emphasis]];
        let (_, audio) = through(&folder, 48_000, [&sides[0], &sides[1]], options);
        for (side, back) in sides.iter().zip([&audio.left, &audio.right]) {
            let pairs = side.iter().zip(back).skip(12_000).take(14_000);
            let worst = pairs.map(|(a, b)| (0.9 * a - b).abs()).fold(0.0, f32::max);
            assert!(worst < 0.002, "{emphasis}: {worst}");
        }
    }
}

#[test]
fn other_rates_in_and_out() {
    let folder = Folder::new("other");
    for (audio_rate, rate) in [(44_100, "192000"), (32_000, "250000"), (48_000, "171007")] {
        let left = tone(1_000.0, audio_rate, 1.0, 0.5);
        let right = vec![0.0; left.len()];
        let options: [&[&str]; 2] = [&["--rate", rate], &[]];
        let (text, audio) = through(&folder, audio_rate, [&left, &right], options);
        assert!(text.contains(&format!("1.000 s at {rate} Hz")), "{text}");
        let apart = separation(&audio, 1_000.0, 0.5);
        assert!(apart > 50.0, "{audio_rate} to {rate}: {apart}");
    }
}

#[test]
fn two_files_are_left_and_right_and_one_channel_is_both() {
    let folder = Folder::new("two");
    let [left, right, mpx, out] = ["l.wav", "r.wav", "m.wav", "o.wav"].map(|n| folder.file(n));
    write_wav(&left, 48_000, &[&tone(1_000.0, 48_000, 0.6, 0.5)]);
    // shorter: the rest is silence
    write_wav(&right, 48_000, &[&tone(400.0, 48_000, 0.4, 0.5)]);
    run(&["encode", &left, &right, "-o", &mpx]).done();
    let text = run(&["decode", &mpx, "-o", &out]).done().text();
    assert!(text.contains("0.600 s at 192000 Hz"), "{text}");
    let audio = read_audio(&out);
    let at = |side: &[f32], f: f64| amplitude(&side[9_600..18_000], f, 48_000);
    assert!(at(&audio.left, 1_000.0) > 0.44 && at(&audio.right, 400.0) > 0.44);
    assert!(at(&audio.left, 400.0) < 0.002 && at(&audio.right, 1_000.0) < 0.002);
    run(&["encode", &left, "-o", &mpx]).done();
    run(&["decode", &mpx, "-o", &out]).done();
    let audio = read_audio(&out);
    assert!(at(&audio.left, 1_000.0) > 0.44 && at(&audio.right, 1_000.0) > 0.44);
}

#[test]
fn without_a_pilot_it_is_mono() {
    let folder = Folder::new("nopilot");
    let left = tone(1_000.0, 48_000, 0.4, 0.5);
    let options: [&[&str]; 2] = [&["--pilot", "0"], &[]];
    let (text, audio) = through(&folder, 48_000, [&left, &left], options);
    assert!(text.contains("no pilot was found"), "{text}");
    assert_eq!(audio.left, audio.right);
}

#[test]
fn a_pipe_from_encode_to_decode() {
    let folder = Folder::new("pipe");
    let audio = folder.file("in.wav");
    let left = tone(1_000.0, 48_000, 0.4, 0.5);
    write_wav(&audio, 48_000, &[&left, &left]);
    let said = run(&["encode", &audio, "-o", "-"]).done();
    assert_eq!(said.out.len(), 4 * 76_800);
    assert!(
        said.err.contains("standard output, raw: 0.400 s"),
        "{}",
        said.err
    );
    let said = run_with(
        &["decode", "-", "--raw", "f32", "--rate", "192000"],
        &said.out,
    )
    .done();
    assert!(said.text().contains("1 change\n"), "{}", said.text());
}

#[test]
fn too_much_and_not_finite_are_said() {
    let folder = Folder::new("over");
    let (audio, mpx) = (folder.file("in.wav"), folder.file("mpx.wav"));
    let mut left = tone(1_000.0, 48_000, 0.2, 1.5);
    left[4_800] = f32::NAN;
    write_wav(&audio, 48_000, &[&left]);
    let text = run(&["encode", &audio, "-o", &mpx, "--preemphasis", "none"])
        .done()
        .text();
    assert!(
        text.contains("beyond full deviation") && text.contains("not finite"),
        "{text}"
    );
    // pre-emphasis passes over it
    let text = run(&["encode", &audio, "-o", &mpx]).done().text();
    assert!(!text.contains("not finite"), "{text}");
}

#[test]
fn what_cannot_be_encoded_is_refused() {
    let folder = Folder::new("cannot");
    let [three, one, other] = ["3.wav", "1.wav", "o.wav"].map(|name| folder.file(name));
    let some = [0.0; 100];
    write_wav(&three, 48_000, &[&some, &some, &some]);
    write_wav(&one, 48_000, &[&some]);
    write_wav(&other, 44_100, &[&some]);
    let mpx = folder.file("mpx.wav");
    run(&["encode", &three, "-o", &mpx]).refused(1, "has 3 channels");
    run(&["encode", &three, &one, "-o", &mpx]).refused(1, "a side has one");
    run(&["encode", &one, &other, "-o", &mpx]).refused(1, "44100 Hz, and the left side 48000 Hz");
    run(&["encode", &one, "-o", &one]).refused(2, "written over");
    run(&["encode", &one, "-o", &mpx, "--rate", "100000"]).refused(2, "from 120000");
    assert_eq!(folder.names(), ["1.wav", "3.wav", "o.wav"]);
}
