//! What the program says of itself.

pub const MAIN: &str = "\
pescrondilu: FM stereo multiplex, decoded and encoded by a proved core

  pescrondilu demo [FOLDER]              make a damaged multiplex, decode it, draw the lamp
  pescrondilu decode CAPTURE [-o AUDIO]  a multiplex to stereo audio, with the lamp's history
  pescrondilu encode AUDIO -o MULTIPLEX  left and right, and RDS, to a multiplex
  pescrondilu help [COMMAND]             options and examples of a command
  pescrondilu --version

The pilot loop with its stereo decision, the figures of its log, the scan of the pilot, the matrix,
the encoder and the RDS group former are calls of the proved core. The filters around them and the
pulses of RDS are not proved.

Exit codes: 0 done, 1 failed, 2 called wrongly.
";

pub const DECODE: &str = "\
pescrondilu decode CAPTURE [-o AUDIO] [OPTIONS]

Decodes an FM multiplex, which is what a demodulator gives, to left and right. CAPTURE is a WAV file
(PCM of 8 to 32 bits, f32, f64; RIFF or RF64) or raw samples; - is standard input. Its rate is
110 kHz or more; 1.0 is full deviation. Without -o there is a report only.

Files
  -o, --output FILE   stereo audio as WAV; - is standard output, raw, and the report then goes to
                      standard error
  --samples f32|s16   of the audio (f32)
  --raw f32|s16       CAPTURE is raw, little-endian, one channel; wants --rate
  --rate HZ           the capture's rate, if it is raw or its header is wrong
  --channel N         of a WAV file with more than one, counted from 1
  --log FILE          the lamp's history as CSV: start and end of the period, least and highest
                      level, lamp at its end, changes, samples of the capture and of the filtered
                      pilot that are NaN or infinite, the pilot's offset from 19 kHz, stereo
                      samples, mono samples, the difference's largest magnitude before its low-pass.
                      Changes, samples and difference are the core's, from sample to sample; the
                      level is looked at every millisecond, and so is the lamp for the report
  --plot FILE         the lamp's history as a picture (SVG)
  --title TEXT        of the picture
  --period MS         of log and picture (100)

Receiver
  --format f32|q15    the floating-point or the integer core (f32)
  --level X           the pilot's nominal amplitude (0.1). The lamp goes on at a level of X/5 and
                      off below 0.15 X; the level is half the pilot's amplitude
  --natural HZ        of the pilot loop (20). A lower one separates left and right better and
                      locks later
  --gain X            applied to the capture (1)
  --deemphasis 50|75|none   time constant in microseconds (50)

The audio's rate is the capture's divided by a whole number: 48 or 44.1 kHz where that can be, else
near 48 kHz. All times are those of the capture: the filters add no delay. A NaN or infinity in the
capture is passed on and is gone after the filters' length; with de-emphasis the audio stays where
it was until then. The report counts them, and says when the last one stood in the pilot. The
integer core takes a NaN for 0, limits the capture to full deviation, and works at a quarter of it,
so that left and right are not limited before their low-pass. Of the floating-point core the report
tells how many phase corrections left the quick path, where any did: samples far above full
deviation make them.

The report says whether the pilot is within ITU-R BS.450: 18998 to 19002 Hz and an amplitude of 0.08
to 0.1 of full deviation. The frequency is by the capture's own clock, and an error of that clock of
100 parts in a million moves it by 1.9 Hz. The loop's integrator is limited to 50 Hz; a tone further
from 19 kHz is named where the lamp never lit.

Examples
  pescrondilu decode capture.wav -o audio.wav --log lamp.csv --plot lamp.svg
  pescrondilu decode capture.raw --raw f32 --rate 192000 --format q15
  demodulator | pescrondilu decode - --raw s16 --rate 192000 --gain 2.56 -o audio.wav
    (2.56 is for a demodulator whose full deviation is 0.39 of full scale)
";

pub const ENCODE: &str = "\
pescrondilu encode AUDIO -o MULTIPLEX [OPTIONS]
pescrondilu encode LEFT RIGHT -o MULTIPLEX [OPTIONS]

Encodes left and right to an FM multiplex with its pilot at 19 kHz. AUDIO is a WAV file of one or
two channels, LEFT and RIGHT are WAV files of one; - is standard input. Audio passes up to 15 kHz.

  -o, --output FILE   the multiplex as WAV; - is standard output, raw, and the report then goes to
                      standard error
  --samples f32|s16   of the multiplex (f32)
  --rate HZ           of the multiplex, 120000 or more (192000)
  --main X            gain of sum and difference, 0 to 1 (0.9)
  --pilot X           amplitude of the pilot, 0 to 0.2 (0.09); BS.450 has 0.08 to 0.1
  --preemphasis 50|75|none   time constant in microseconds (50)
  --rds FILE          RDS groups, one a line: four words of four hexadecimal digits each, blanks
                      between them; # begins a comment. They are sent one after the other, and from
                      the first again until the audio ends, at 1187.5 bit/s
  --rds-level X       peak deviation of RDS, 0 to 0.2 (0.03). It comes on top of sum, difference and
                      pilot: --main 0.88 leaves room for 0.03

Examples
  pescrondilu encode programme.wav -o multiplex.wav
  pescrondilu encode programme.wav -o multiplex.wav --rds groups.txt --main 0.88
  pescrondilu encode left.wav right.wav -o multiplex.wav --rate 250000 --preemphasis 75
  pescrondilu encode programme.wav -o - | pescrondilu decode - --raw f32 --rate 192000 -o out.wav
";

pub const DEMO: &str = "\
pescrondilu demo [FOLDER]

Makes 12 seconds of two tunes, encodes them, damages the multiplex (a fade into noise, a retune with
a burst of negative NaN and infinities, a pilot that goes and comes back) and decodes it. It leaves
in FOLDER (./pescrondilu-demo): programme.wav, multiplex.wav, audio.wav, log.csv, lamp.svg.

Examples
  pescrondilu demo
  pescrondilu demo /tmp/fm
";

/// The text for a command.
pub fn of(command: &str) -> Option<&'static str> {
    match command {
        "decode" => Some(DECODE),
        "encode" => Some(ENCODE),
        "demo" => Some(DEMO),
        "help" => Some(MAIN),
        _ => None,
    }
}
