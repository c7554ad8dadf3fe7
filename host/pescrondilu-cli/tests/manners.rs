//! How the program behaves: exit codes, damaged files, pipes, what it leaves behind.

mod common;

use common::*;
use std::fs;
use std::io::Read;
use std::process::Stdio;

#[test]
fn it_says_what_it_can_do() {
    let main = run(&["help"]).done().text();
    for command in ["demo", "decode", "encode"] {
        assert!(main.contains(&format!("pescrondilu {command}")));
        let one = run(&["help", command]).done().text();
        assert!(one.starts_with(&format!("pescrondilu {command}")) && one.contains("Examples"));
        assert_eq!(run(&[command, "--help"]).done().text(), one);
        assert_eq!(run(&[command, "x", "-h"]).done().text(), one);
    }
    assert_eq!(run(&["--help"]).done().text(), main);
    let version = run(&["--version"]).done().text();
    assert_eq!(
        version,
        format!("pescrondilu {}\n", env!("CARGO_PKG_VERSION"))
    );
}

#[test]
fn called_wrongly_is_2() {
    run(&[]).refused(2, "what shall be done?");
    run(&["dance"]).refused(2, "unknown command dance");
    run(&["help", "dance"]).refused(2, "unknown command dance");
    run(&["decode"]).refused(2, "wants one capture");
    run(&["decode", "x", "--colour", "red"]).refused(2, "unknown option --colour");
    run(&["decode", "x", "--rate"]).refused(2, "--rate wants a value");
    run(&["decode", "x", "--raw", "f32"]).refused(2, "--raw wants --rate");
    run(&["decode", "x", "--level", "nan"]).refused(2, "nan is no number");
    run(&["encode", "x"]).refused(2, "wants -o FILE");
    run(&["demo", "a", "b"]).refused(2, "one folder at most");
}

#[cfg(unix)]
#[test]
fn a_name_that_is_no_text_is_refused() {
    use std::os::unix::ffi::OsStrExt;
    let word = std::ffi::OsStr::from_bytes(b"a\xFFb");
    let output = program().arg("decode").arg(word).output().unwrap();
    assert_eq!(output.status.code(), Some(2));
    assert!(String::from_utf8_lossy(&output.stderr).contains("not UTF-8"));
}

#[test]
fn failed_is_1_and_names_the_file() {
    let folder = Folder::new("failed");
    let none = folder.file("none.wav");
    run(&["decode", &none]).refused(1, &format!("{none}: there is no such file"));
    run(&["decode", folder.path().to_str().unwrap()]).refused(1, "is a folder");
    run(&["encode", &none, "-o", "x.wav"]).refused(1, "there is no such file");
    let capture = folder.file("mpx.wav");
    write_wav(&capture, RATE, &[&[0.0; 1_000]]);
    let away = folder.file("no/such/folder.wav");
    run(&["decode", &capture, "-o", &away]).refused(1, "folder.wav: there is no such file");
    run(&["decode", &capture, "-o", folder.path().to_str().unwrap()]).refused(1, "is a folder");
    let natural = ["--natural", "0.01", "--format", "q15"];
    run(&[&["decode", &capture], &natural[..]].concat()).refused(1, "becomes 0 in Q15");
    run(&["demo", &capture]).refused(1, "mpx.wav");
    assert_eq!(folder.names(), ["mpx.wav"]);
}

#[test]
fn damaged_files_give_an_error_or_what_is_there() {
    let folder = Folder::new("damaged");
    let good = wav(
        3,
        32,
        1,
        RATE,
        &f32_bytes(
            &Multiplex {
                seconds: 0.02,
                ..Default::default()
            }
            .make(),
        ),
    );
    let changed = |at: usize, byte: u8| {
        let mut bytes = good.clone();
        bytes[at] = byte;
        bytes
    };
    for (name, bytes, reason) in [
        ("empty", vec![], "is empty"),
        ("short", good[..10].to_vec(), "is no WAV file"),
        (
            "text",
            b"This is a text file, and no capture at all.".to_vec(),
            "is no WAV file",
        ),
        (
            "header only",
            good[..12].to_vec(),
            "ends before its samples",
        ),
        ("half a header", good[..30].to_vec(), "too short"),
        ("no data", good[..36].to_vec(), "ends before its samples"),
        ("no samples", good[..44].to_vec(), "has no samples"),
        ("no channels", changed(22, 0), "0 channels"),
        ("odd bits", changed(34, 31), "is not read"),
        ("odd frame", changed(32, 7), "frame of 7 bytes"),
        ("another tag", changed(20, 85), "WAV format 85"),
        (
            "low rate",
            wav(3, 32, 1, 48_000, &[0; 400]),
            "the rate is 48000 Hz",
        ),
        (
            "high rate",
            wav(3, 32, 1, 900_000_000, &[0; 400]),
            "the rate is 900000000 Hz",
        ),
    ] {
        let path = folder.file(name);
        fs::write(&path, bytes).unwrap();
        let audio = folder.file("audio.wav");
        let said = run(&["decode", &path, "-o", &audio]);
        said.refused(1, reason);
        assert!(said.err.contains(&path), "{}", said.err);
        assert!(
            !folder.names().iter().any(|name| name.starts_with("audio")),
            "{name}"
        );
    }
    let path = folder.file("early");
    fs::write(&path, &good[..good.len() - 1_001]).unwrap();
    let text = run(&["decode", &path]).done().text();
    assert!(
        text.contains("the samples end early: 3589 were read"),
        "{text}"
    );
}

/// Each byte of a header changed, and each length cut: an answer every time, and no panic.
#[test]
fn no_header_makes_it_panic() {
    let good = wav(3, 32, 1, RATE, &f32_bytes(&[0.25; 64]));
    let mut tried = 0;
    for at in (0..44).chain([60]) {
        let cut = &good[..at];
        let mut changed = good.clone();
        changed[at] ^= 0xFF;
        for bytes in [cut, &changed] {
            let said = run_with(&["decode", "-"], bytes);
            assert!([0, 1].contains(&said.code), "{at}: {}", said.err);
            assert!(!said.err.contains("panicked"), "{at}: {}", said.err);
            tried += 1;
        }
    }
    assert_eq!(tried, 90);
}

#[test]
fn a_reader_that_goes_away_ends_it_quietly() {
    let folder = Folder::new("closed");
    let capture = folder.file("mpx.wav");
    write_wav(
        &capture,
        RATE,
        &[&Multiplex {
            seconds: 1.5,
            ..Default::default()
        }
        .make()],
    );
    let log = folder.file("log.csv");
    let mut child = program()
        .args(["decode", &capture, "-o", "-", "--log", &log])
        .stdout(Stdio::piped())
        .stderr(Stdio::piped())
        .spawn()
        .unwrap();
    let mut start = [0; 1_000];
    child.stdout.take().unwrap().read_exact(&mut start).unwrap();
    let mut said = String::new();
    child
        .stderr
        .take()
        .unwrap()
        .read_to_string(&mut said)
        .unwrap();
    assert_eq!((child.wait().unwrap().code(), said.as_str()), (Some(0), ""));
    // what was not finished is not left
    assert_eq!(folder.names(), ["mpx.wav"]);
    let mut child = program()
        .arg("help")
        .stdout(Stdio::piped())
        .spawn()
        .unwrap();
    drop(child.stdout.take());
    assert_eq!(child.wait().unwrap().code(), Some(0));
}

#[cfg(target_os = "linux")]
#[test]
fn a_full_disk_is_a_failure() {
    let folder = Folder::new("full");
    let capture = folder.file("mpx.wav");
    write_wav(&capture, RATE, &[&[0.0; 10_000]]);
    run(&["decode", &capture, "-o", "/dev/full"]).refused(1, "/dev/full: No space left");
    run(&["decode", &capture, "--plot", "/dev/full"]).refused(1, "/dev/full: No space left");
    let full = fs::File::options().write(true).open("/dev/full").unwrap();
    let status = program()
        .arg("help")
        .stdout(full)
        .stderr(Stdio::null())
        .status()
        .unwrap();
    assert_eq!(status.code(), Some(1));
    run(&["decode", &capture, "-o", "/dev/null"]).done();
}

#[test]
fn an_old_file_stays_when_the_work_fails() {
    let folder = Folder::new("stays");
    let (capture, audio) = (folder.file("two.wav"), folder.file("audio.wav"));
    write_wav(&capture, RATE, &[&[0.0; 0]]);
    fs::write(&audio, "old").unwrap();
    run(&["decode", &capture, "-o", &audio]).refused(1, "has no samples");
    assert_eq!(fs::read_to_string(&audio).unwrap(), "old");
    assert_eq!(folder.names(), ["audio.wav", "two.wav"]);
}

#[test]
fn the_capture_is_never_written_over() {
    let folder = Folder::new("over");
    let capture = folder.file("mpx.wav");
    write_wav(&capture, RATE, &[&[0.0; 1_000]]);
    let before = fs::read(&capture).unwrap();
    for option in ["-o", "--log", "--plot"] {
        run(&["decode", &capture, option, &capture]).refused(2, "written over");
    }
    assert_eq!(fs::read(&capture).unwrap(), before);
}
