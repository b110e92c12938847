//! Runs the built tool on voices that are made here, and on those of the folder `voices` where it is there: statuses,
//! output, files that are written, and what is said of bad input.
use std::ffi::OsStr;
use std::fs::{self, File, Permissions};
use std::io::Read;
use std::os::unix::ffi::OsStrExt;
use std::os::unix::fs::{symlink, FileTypeExt, MetadataExt, PermissionsExt};
use std::path::{Path, PathBuf};
use std::process::Command;
use std::time::Duration;
use svx::{
    ChannelAssignment, ChannelSamples, EgPoint, Entry, Envelope, Note, Pan, Seqn, SeqnSegment, Sheet, Voice,
    VoiceHeader,
};

/// A whole file: one sample, -2, played once, at 8,000 samples a second.
const EXAMPLE: [u8; 50] = [
    0x46, 0x4F, 0x52, 0x4D, 0, 0, 0, 0x2A, 0x38, 0x53, 0x56, 0x58, 0x56, 0x48, 0x44, 0x52, 0, 0, 0, 0x14, 0, 0, 0, 1,
    0, 0, 0, 0, 0, 0, 0, 0, 0x1F, 0x40, 1, 0, 0, 1, 0, 0, 0x42, 0x4F, 0x44, 0x59, 0, 0, 0, 1, 0xFE, 0,
];

const COMMANDS: [&str; 12] = [
    "info", "check", "stem", "mix", "null", "wave", "raw", "rewrite", "vault", "crossing", "draw", "make",
];

/// What a run of the tool gave.
struct Ran {
    status: Option<i32>,
    bytes: Vec<u8>,
    out: String,
    err: String,
}

const TOOL: &str = env!("CARGO_BIN_EXE_svx");

fn run(arguments: &[&dyn AsRef<OsStr>]) -> Ran {
    run_program(TOOL, arguments)
}

fn run_program(program: &str, arguments: &[&dyn AsRef<OsStr>]) -> Ran {
    let mut command = Command::new(program);
    for argument in arguments {
        command.arg(argument.as_ref());
    }
    let ran = command.output().expect("the tool runs");
    let text = |bytes: &[u8]| String::from_utf8_lossy(bytes).into_owned();
    Ran {
        status: ran.status.code(),
        out: text(&ran.stdout),
        err: text(&ran.stderr),
        bytes: ran.stdout,
    }
}

impl Ran {
    /// It ended well and complained of nothing.
    fn well(self) -> Ran {
        assert_eq!((self.status, self.err.as_str()), (Some(0), ""), "{}", self.out);
        self
    }

    /// It ended with a status, one line on standard error that has these words, and nothing on standard output.
    fn fails(self, status: i32, words: &str) {
        assert_eq!(self.status, Some(status), "{}", self.err);
        assert_eq!(self.out, "");
        assert!(
            self.err.starts_with("svx: ") && self.err.ends_with('\n'),
            "{:?}",
            self.err
        );
        assert_eq!(self.err.lines().count(), 1, "{:?}", self.err);
        assert!(self.err.contains(words), "{:?} lacks {words:?}", self.err);
    }
}

/// A folder for one test, removed at its end.
struct Folder(PathBuf);

impl Folder {
    fn new(name: &str) -> Folder {
        let path = std::env::temp_dir().join(format!("svx-commands-{}-{name}", std::process::id()));
        fs::create_dir_all(&path).expect("a folder for the test");
        Folder(path)
    }

    fn path(&self, name: &str) -> PathBuf {
        self.0.join(name)
    }

    fn file(&self, name: &str, bytes: &[u8]) -> PathBuf {
        let path = self.path(name);
        fs::write(&path, bytes).expect("a file for the test");
        path
    }

    fn voice(&self, name: &str, voice: &Voice) -> PathBuf {
        self.file(name, &svx::encode_voice(voice).expect("a voice that can be written"))
    }

    fn read(&self, name: &str) -> Vec<u8> {
        fs::read(self.path(name)).expect("a file")
    }

    /// Files that are to be found again by `are_kept`.
    fn old_files(&self, names: &[&str]) {
        for name in names {
            self.file(name, format!("the old {name}").as_bytes());
        }
    }

    fn are_kept(&self, names: &[&str]) {
        for name in names {
            assert_eq!(self.read(name), format!("the old {name}").as_bytes());
        }
    }

    /// Its files, hidden ones too, as one line.
    fn names(&self) -> String {
        let entries = fs::read_dir(&self.0).expect("the folder").flatten();
        let mut names: Vec<String> = entries
            .map(|entry| entry.file_name().to_string_lossy().into_owned())
            .collect();
        names.sort();
        names.join(" ")
    }
}

impl Drop for Folder {
    fn drop(&mut self) {
        let _ = fs::remove_dir_all(&self.0);
    }
}

fn wave(length: usize, rise: i32) -> Vec<i8> {
    (0..length as i32).map(|i| (i * rise % 256 - 128) as i8).collect()
}

fn points(list: &[(u16, i32)]) -> Envelope {
    Envelope {
        points: list
            .iter()
            .map(|&(duration_ms, dest)| EgPoint { duration_ms, dest })
            .collect(),
    }
}

/// Two looped octaves with everything but a sequence.
fn looped() -> Voice {
    Voice {
        header: VoiceHeader {
            one_shot_hi_samples: 4,
            repeat_hi_samples: 8,
            samples_per_hi_cycle: 4,
            samples_per_sec: 8_000,
            ct_octave: 2,
            volume: 49_152,
            ..VoiceHeader::default()
        },
        pan: Some(Pan { position: 49_152 }),
        attack: vec![points(&[(10, 65_536)]), points(&[(20, 32_768)])],
        release: vec![points(&[(30, 0)])],
        metadata: vec![
            ("title".into(), "Tom & <Jerry>".into()),
            ("comment".into(), "bell\u{7}\u{1b}[1m".into()),
        ],
        channels: vec![ChannelSamples {
            octaves: vec![wave(12, 37), wave(24, 11)],
        }],
        ..Voice::default()
    }
}

fn stereo() -> Voice {
    Voice {
        header: VoiceHeader {
            one_shot_hi_samples: 3,
            samples_per_sec: 8_000,
            ..VoiceHeader::default()
        },
        channel: Some(ChannelAssignment::Stereo),
        channels: vec![
            ChannelSamples {
                octaves: vec![vec![1, -2, 3]],
            },
            ChannelSamples {
                octaves: vec![vec![-128, 127, 0]],
            },
        ],
        ..Voice::default()
    }
}

/// A voice that is read, but whose notes are refused by 21.
fn unplayable() -> Voice {
    let segments = vec![SeqnSegment { start: 0, end: 6 }];
    Voice {
        header: VoiceHeader {
            repeat_hi_samples: 8,
            samples_per_sec: 8_000,
            ..VoiceHeader::default()
        },
        seqn: Some(Seqn { segments }),
        channels: vec![ChannelSamples {
            octaves: vec![wave(8, 9)],
        }],
        ..Voice::default()
    }
}

/// The values of a note, filled here: left and right by turns.
fn filled(voice: &Voice, note: Note, frames: usize, key_up: Option<usize>) -> Vec<i16> {
    let sheet = Sheet::of(voice).expect("a sheet");
    let until = key_up.map_or(frames, |u| u.min(frames));
    let mut values = vec![0; 2 * frames];
    let (mut note, _) = note.fill(&sheet, &mut values[..2 * until]).expect("a fill");
    if key_up.is_some() {
        note = note.key_up();
    }
    note.fill(&sheet, &mut values[2 * until..]).expect("a fill");
    values
}

/// Takes a WAV file of 16-bit stereo frames apart: its rate and its values.
fn wav(bytes: &[u8]) -> (u32, Vec<i16>) {
    let word = |at: usize| u32::from_le_bytes(bytes[at..at + 4].try_into().expect("four bytes"));
    let data = bytes.len() as u32 - 44;
    assert_eq!((&bytes[..4], word(4)), (&b"RIFF"[..], 36 + data));
    assert_eq!((&bytes[8..16], word(16)), (&b"WAVEfmt "[..], 16));
    assert_eq!(word(20), 1 | 2 << 16, "PCM, two channels");
    assert_eq!(word(28), 4 * word(24), "bytes a second");
    assert_eq!(word(32), 4 | 16 << 16, "bytes a frame, bits a value");
    assert_eq!((&bytes[36..40], word(40)), (&b"data"[..], data));
    let values = bytes[44..]
        .chunks_exact(2)
        .map(|pair| i16::from_le_bytes([pair[0], pair[1]]));
    (word(24), values.collect())
}

/// Runs `stem` with options and takes its file apart.
fn stem(folder: &Folder, file: &Path, options: &[&str]) -> (u32, Vec<i16>) {
    let out = folder.path("stem.wav");
    let mut arguments: Vec<&dyn AsRef<OsStr>> = vec![&"stem", &file, &out];
    options.iter().for_each(|option| arguments.push(option));
    run(&arguments).well();
    wav(&fs::read(&out).expect("a file was written"))
}

#[test]
fn help_ends_well() {
    for command in COMMANDS {
        for ran in [
            run(&[&command, &"--help"]),
            run(&[&command, &"-h"]),
            run(&[&"help", &command]),
        ] {
            let first = if command == "make" { "(NUMBER" } else { "FILE" };
            assert!(ran.well().out.starts_with(&format!("usage: svx {command} {first}")));
        }
    }
    for ran in [run(&[&"--help"]), run(&[&"help"])] {
        let out = ran.well().out;
        assert!(
            COMMANDS.iter().all(|command| out.contains(&format!("\n  {command} "))),
            "{out}"
        );
        assert!(out.lines().all(|line| line.len() <= 82), "{out}");
    }
    assert!(run(&[&"--version"]).well().out.starts_with("svx "));
}

#[test]
fn wrong_usage_is_2() {
    let folder = Folder::new("usage");
    let (file, out) = (folder.file("example.8svx", &EXAMPLE), folder.path("out"));
    run(&[]).fails(2, "no command");
    run(&[&"play"]).fails(2, "no command play");
    run(&[&"--rate"]).fails(2, "no command --rate");
    for command in COMMANDS {
        run(&[&command]).fails(2, "usage: svx");
        run(&[&command, &file, &out, &"--loud"]).fails(2, "unknown option --loud");
    }
    run(&[&"info", &file, &file]).fails(2, "usage: svx info FILE");
    run(&[&"stem", &file, &out, &"--octave"]).fails(2, "--octave needs a value");
    run(&[&"stem", &file, &out, &"--octave", &"256"]).fails(2, "from 0 to 255");
    run(&[&"stem", &file, &out, &"--octave", &"-1"]).fails(2, "from 0 to 255");
    run(&[&"stem", &file, &out, &"--step", &"1", &"--step", &"2"]).fails(2, "twice");
    run(&[&"stem", &file, &out, &"--step=1", &"--note-rate=2"]).fails(2, "exclude each other");
    run(&[&"stem", &file, &out, &"--frames=1", &"--seconds=2"]).fails(2, "exclude each other");
    run(&[&"stem", &file, &out, &"--key-up=1", &"--key-up-seconds=2"]).fails(2, "exclude each other");
    run(&[&"stem", &file, &out, &"--block", &"0"]).fails(2, "from 1 to 1,048,576");
    run(&[&"stem", &file, &out, &"--seconds", &"1e3"]).fails(2, "--seconds takes a number");
    run(&[&"mix", &file, &out]).fails(2, "usage: svx mix FILE SCORE OUT.wav");
    run(&[&"mix", &file, &file, &out, &"--rate=fast"]).fails(2, "--rate takes a whole number");
    run(&[&"mix", &file, &file, &out, &"--seconds=-1"]).fails(2, "--seconds takes a number");
    run(&[&"mix", &file, &file, &out, &"--force=1"]).fails(2, "takes no value");
    run(&[&"rewrite", &file, &out, &"--raw=1"]).fails(2, "takes no value");
    run(&[&"rewrite", &file, &out, &"--raw", &"--fibonacci"]).fails(2, "exclude each other");
    run(&[&"wave", &file, &out, &"--octave=0", &"--all"]).fails(2, "exclude each other");
    run(&[&"wave", &file, &out, &"--octave=256"]).fails(2, "from 0 to 255");
    run(&[&"wave", &file, &out, &"--force=1"]).fails(2, "takes no value");
    run(&[&"wave", &file, &"-", &"--all"]).fails(2, "--all writes several files");
    run(&[&"vault", &file]).fails(2, "usage: svx vault FILE OUT [--restore | --anew] [--force]");
    run(&[&"vault", &file, &out, &out]).fails(2, "usage: svx vault FILE OUT");
    run(&[&"vault", &file, &out, &"--restore", &"--anew"]).fails(2, "exclude each other");
    run(&[&"vault", &file, &out, &"--force=1"]).fails(2, "takes no value");
    run(&[&"crossing", &file, &"--place=0"]).fails(2, "--octave is missing (svx crossing --help tells more)");
    run(&[&"crossing", &file, &"--octave=0"]).fails(2, "--place is missing");
    run(&[&"crossing", &file, &"--octave=256", &"--place=0"]).fails(2, "from 0 to 255");
    run(&[&"crossing", &file, &"--octave=0", &"--place=-1"]).fails(2, "from 0 to 18,446,744,073,709,551,615");
    run(&[&"crossing", &file, &"--octave=0", &"--place=0", &"--reach=near"]).fails(2, "--reach takes a whole number");
    run(&[&"crossing", &file, &file, &"--octave=0", &"--place=0"]).fails(2, "usage: svx crossing FILE");
    assert!(!out.exists());
}

#[test]
fn bad_input_is_told_in_one_line() {
    let folder = Folder::new("input");
    let (empty, byte) = (folder.file("empty", &[]), folder.file("byte", b"F"));
    let out = folder.path("out");
    let cases: [(&Path, i32, &str); 6] = [
        (&folder.0, 2, "is a directory"),
        (&folder.path("missing"), 2, "no such file"),
        (&folder.path("new\nline"), 2, "new\\nline: no such file"),
        (&empty, 1, "refused by 1: "),
        (&byte, 1, "refused by 1: "),
        (Path::new("/dev/null"), 1, "refused by 1: "),
    ];
    for (path, status, words) in cases {
        run(&[&"info", &path]).fails(status, words);
        run(&[&"null", &path]).fails(status, words);
        run(&[&"crossing", &path, &"--octave=0", &"--place=0"]).fails(status, words);
        run(&[&"wave", &path, &out, &"--all"]).fails(status, words);
        run(&[&"mix", &path, &path, &out]).fails(status, words);
        run(&[&"vault", &path, &out, &"--anew"]).fails(status, words);
        let unlike = if status == 1 { "isn't a stored voice" } else { words };
        run(&[&"vault", &"--restore", &path, &out]).fails(2, unlike);
        for command in ["stem", "wave", "raw", "rewrite", "vault", "draw"] {
            run(&[&command, &path, &out]).fails(status, words);
            assert!(!out.exists(), "{command} left a file behind");
        }
    }
}

/// Makes a file longer by a hole; where holes can't be made it stays as it is.
fn stretched(path: &Path, length: u64) -> bool {
    let file = File::options().write(true).open(path);
    file.and_then(|file| file.set_len(length)).is_ok()
}

#[test]
fn a_file_over_4_gib_is_not_read() {
    let folder = Folder::new("large");
    let path = folder.file("large", b"FORM\0\0\0\x048SVX");
    if stretched(&path, (1 << 32) + 1) {
        run(&[&"check", &path]).fails(2, "is larger than 4 GiB");
        run(&[&"info", &path]).fails(2, "is larger than 4 GiB");
        run(&[&"vault", &path, &folder.path("out")]).fails(2, "is larger than 4 GiB");
        // Of one that isn't a stored voice only the beginning is read.
        run(&[&"vault", &"--restore", &path, &folder.path("out")]).fails(2, "isn't a stored voice");
    }
    let path = folder.file("stored", b"8SVXDIFF");
    if stretched(&path, (1 << 33) + 1) {
        run(&[&"vault", &"--restore", &path, &folder.path("out")]).fails(2, "is larger than 8 GiB");
    }
    assert_eq!(folder.names(), "large stored");
}

#[test]
fn check_says_a_line_for_each_file() {
    let folder = Folder::new("check");
    let (good, byte) = (folder.file("good", &EXAMPLE), folder.file("byte", b"F"));
    let (good_line, byte_line) = (
        format!("{}: ok\n", good.display()),
        format!(
            "{}: refused by 1: {}\n",
            byte.display(),
            svx::parse_voice(b"F").expect_err("too short").words()
        ),
    );
    assert_eq!(run(&[&"check", &good]).well().out, good_line);
    let ran = run(&[&"check", &byte, &good]);
    assert_eq!((ran.status, ran.err.as_str()), (Some(1), ""));
    assert_eq!(ran.out, byte_line.clone() + &good_line);
    run(&[&"check", &folder.0]).fails(2, "is a directory");
    let ran = run(&[&"check", &folder.path("missing"), &byte, &good]);
    assert_eq!((ran.status, ran.out), (Some(2), byte_line + &good_line));
    assert_eq!(
        ran.err,
        format!("svx: {}: no such file or directory\n", folder.path("missing").display())
    );
    let ran = run(&[&"check", &"/dev/zero", &"/dev/null"]);
    assert_eq!(
        (ran.status, ran.err.as_str(), ran.out.lines().count()),
        (Some(1), "", 2)
    );
}

#[test]
fn info_tells_what_is_in_a_voice() {
    let folder = Folder::new("info");
    let path = folder.voice("looped.8svx", &looped());
    let size = fs::metadata(&path).expect("a file").len();
    let expected = format!(
        "{}: {size} bytes
title:        Tom & <Jerry>
comment:      bell\\u{{7}}\\u{{1b}}[1m
channels:     1, placed by its pan
rate:         8,000 samples a second
octaves:      2
  octave 0: 12 samples, 1.5 ms; one-shot 4, loop 8
  octave 1: 24 samples, 3 ms; one-shot 8, loop 16
cycle:        4 samples in octave 0, 2000.00 Hz at the voice's rate
volume:       75%
compression:  none
pan:          75% left, 25% right
attack:       2 points, 30 ms
  to 100% in 10 ms, at 10 ms
  to 50% in 20 ms, at 30 ms
release:      1 point, 30 ms
  to 0% in 30 ms, at 30 ms
sequence:     none
fade:         none
notes:        can be played
",
        path.display()
    );
    assert_eq!(run(&[&"info", &path]).well().out, expected);
}

#[test]
fn info_tells_of_sides_and_sequences() {
    let folder = Folder::new("sides");
    let out = run(&[&"info", &folder.voice("stereo.8svx", &stereo())]).well().out;
    assert!(
        out.contains("\nchannels:     2, left and right\n") && out.contains("\nattack:       none: full level"),
        "{out}"
    );
    let out = run(&[&"info", &folder.voice("unplayable.8svx", &unplayable())])
        .well()
        .out;
    assert!(
        out.contains("\nsequence:     1 segment\n  segment 0: samples 0 to 6\n"),
        "{out}"
    );
    assert!(out.contains("\nnotes:        refused by 21: "), "{out}");
    let out = run(&[&"info", &folder.file("example.8svx", &EXAMPLE)]).well().out;
    assert!(
        out.contains(": 50 bytes\n") && out.contains("\n  octave 0: 1 sample, 0.125 ms; one-shot 1, loop 0\n"),
        "{out}"
    );
    assert!(
        out.contains("\ncycle:        not known\n") && out.contains("\npan:          none\n"),
        "{out}"
    );
}

#[test]
fn info_tells_what_places_a_voice() {
    let folder = Folder::new("placed");
    let line = |out: &str, word: &str| {
        let found = out.lines().find_map(|line| line.strip_prefix(word));
        found.expect("a line of that word").trim_start().to_string()
    };
    let panned = |voice: Voice, channel| Voice {
        channel,
        pan: Some(Pan { position: 49_152 }),
        ..voice
    };
    let unpanned = |channel| Voice {
        channel,
        pan: None,
        ..looped()
    };
    let (left, right) = (Some(ChannelAssignment::Left), Some(ChannelAssignment::Right));
    let two = Some(ChannelAssignment::Stereo);
    let shares = "75% left, 25% right";
    let two_shares = "75% left, 25% right; not used, since two channels have a side each";
    for (voice, channels, pan) in [
        (unpanned(None), "1, on both sides", "none"),
        (unpanned(left), "1, on the left side", "none"),
        (unpanned(right), "1, on the right side", "none"),
        (panned(looped(), None), "1, placed by its pan", shares),
        (
            panned(looped(), left),
            "1, placed by its pan; CHAN, left, is not used",
            shares,
        ),
        (
            panned(looped(), right),
            "1, placed by its pan; CHAN, right, is not used",
            shares,
        ),
        (panned(stereo(), two), "2, left and right", two_shares),
    ] {
        let out = run(&[&"info", &folder.voice("placed.8svx", &voice)]).well().out;
        assert_eq!(
            (line(&out, "channels:").as_str(), line(&out, "pan:").as_str()),
            (channels, pan)
        );
    }
}

#[test]
fn stem_writes_what_a_fill_gives() {
    let folder = Folder::new("stem");
    let (voice, note) = (looped(), Note::start(1, 50_000, 22_050, 127));
    let path = folder.voice("looped.8svx", &voice);
    let options = [
        "--octave=1",
        "--step=50000",
        "--rate",
        "22050",
        "--frames=3000",
        "--key-up=1234",
    ];
    let expected = filled(&voice, note, 3_000, Some(1_234));
    assert_eq!(stem(&folder, &path, &options), (22_050, expected.clone()));
    for block in ["--block=1", "--block=7", "--block=1000", "--block=1048576"] {
        assert_eq!(
            stem(&folder, &path, &[&options[..], &[block]].concat()).1,
            expected,
            "{block}"
        );
    }
    let ran = run(&[&"stem", &path, &"-", &"--frames=5", &"--step=65536"]).well();
    assert_eq!(
        wav(&ran.bytes),
        (44_100, filled(&voice, Note::start(0, 65_536, 44_100, 127), 5, None))
    );
    let path = folder.voice("stereo.8svx", &stereo());
    assert_eq!(
        stem(&folder, &path, &["--step=65536"]).1,
        [256, -32_768, -512, 32_512, 768, 0]
    );
}

#[test]
fn stem_strikes_as_hard_as_asked() {
    let folder = Folder::new("velocity");
    let (voice, example) = (looped(), folder.file("example.8svx", &EXAMPLE));
    let path = folder.voice("looped.8svx", &voice);
    // -512 × 64 / 127 is -258.01, cut toward zero.
    assert_eq!(stem(&folder, &example, &["--velocity=64"]).1, vec![-258; 12]);
    // As hard as can be is what a stem has that isn't told.
    assert_eq!(stem(&folder, &example, &["--velocity", "127"]).1, vec![-512; 12]);
    let expected = filled(&voice, Note::start(1, 50_000, 22_050, 33), 3_000, Some(1_234));
    let options = [
        "--octave=1",
        "--step=50000",
        "--rate=22050",
        "--frames=3000",
        "--key-up=1234",
    ];
    for block in ["--block=1", "--block=7", "--block=4096"] {
        let asked = [&options[..], &["--velocity=33", block]].concat();
        assert_eq!(stem(&folder, &path, &asked).1, expected, "{block}");
    }
    run(&[&"stem", &path, &folder.path("out.wav"), &"--velocity=256"]).fails(2, "--velocity");
    run(&[&"stem", &path, &folder.path("out.wav"), &"--velocity=loud"]).fails(2, "--velocity");
}

#[test]
fn stem_reckons_steps_and_lengths() {
    let folder = Folder::new("lengths");
    let (voice, example) = (looped(), folder.file("example.8svx", &EXAMPLE));
    let path = folder.voice("looped.8svx", &voice);
    // 8,000 samples a second at 44,100 frames: a step of 11,888, so that the only sample sounds for 6 frames.
    assert_eq!(stem(&folder, &example, &[]), (44_100, vec![-512; 12]));
    assert_eq!(stem(&folder, &example, &["--note-rate=4000"]).1, vec![-512; 24]);
    assert_eq!(
        stem(&folder, &example, &["--note-rate=0.5", "--rate=8"]).1,
        vec![-512; 32]
    );
    assert_eq!(
        stem(&folder, &example, &["--seconds=0.0002"]).1,
        [vec![-512; 12], vec![0; 4]].concat()
    );
    // A held loop gets 10 seconds. Let go, it is over after the release's 30 ms.
    assert_eq!(stem(&folder, &path, &["--rate=1000"]).1.len(), 2 * 10_000);
    let expected = filled(&voice, Note::start(0, 524_288, 1_000, 127), 12_030, Some(12_000));
    assert_eq!(
        stem(&folder, &path, &["--rate=1000", "--key-up-seconds=12"]),
        (1_000, expected)
    );
    assert_eq!(stem(&folder, &example, &["--frames=0"]).1.len(), 0);
}

#[test]
fn a_refused_note_leaves_no_file() {
    let folder = Folder::new("refused");
    let (path, out) = (folder.voice("looped.8svx", &looped()), folder.path("out.wav"));
    let bad = folder.voice("unplayable.8svx", &unplayable());
    let cases = [
        ("--octave=2", "by 31: "),
        ("--step=0", "by 32: "),
        ("--step=16777217", "by 32: "),
        ("--rate=0", "by 33: "),
        ("--velocity=0", "by 44: "),
        ("--velocity=128", "by 44: "),
    ];
    for (option, words) in cases {
        run(&[&"stem", &path, &out, &option]).fails(1, words);
        run(&[&"null", &path, &option]).fails(1, words);
    }
    run(&[&"stem", &path, &out, &"--rate=192001"]).fails(1, "by 33: ");
    run(&[&"stem", &bad, &out]).fails(1, "by 21: ");
    run(&[&"null", &bad]).fails(1, "by 21: ");
    assert!(!out.exists());
    fs::write(&out, "kept").expect("a file for the test");
    run(&[&"stem", &bad, &out]).fails(1, "by 21: ");
    run(&[&"stem", &path, &out, &"--frames=1073741815"]).fails(2, "4 GiB");
    run(&[&"stem", &path, &out, &"--seconds=1000000"]).fails(2, "4 GiB");
    assert_eq!(fs::read(&out).expect("the file"), b"kept");
    let mut voice = looped();
    voice.header.samples_per_sec = 0;
    run(&[&"stem", &folder.voice("no-rate.8svx", &voice), &out]).fails(2, "names no rate");
}

/// Writes a score and runs `mix` on it, with the file out.wav and options.
fn run_mix(folder: &Folder, voice: &Path, score: &str, options: &[&str]) -> Ran {
    let (score, out) = (folder.file("score", score.as_bytes()), folder.path("out.wav"));
    let mut arguments: Vec<&dyn AsRef<OsStr>> = vec![&"mix", &voice, &score, &out];
    options.iter().for_each(|option| arguments.push(option));
    run(&arguments)
}

/// The same, and takes its file apart.
fn mix(folder: &Folder, voice: &Path, score: &str, options: &[&str]) -> (u32, Vec<i16>) {
    run_mix(folder, voice, score, &[options, &["--force"]].concat()).well();
    wav(&folder.read("out.wav"))
}

/// The values of a mix, made here.
fn mixed(voice: &Voice, score: &[Entry], rate: u32, frames: usize) -> Vec<i16> {
    let mut values = vec![0; 2 * frames];
    let sheet = Sheet::of(voice).expect("a sheet");
    svx::mix(score, rate, 0, &sheet, &mut values).expect("a mix");
    values
}

fn entry(start: u32, key_up: u32, octave: u8, step: u32, velocity: u8) -> Entry {
    Entry {
        start,
        key_up,
        step,
        octave,
        velocity,
    }
}

#[test]
fn mix_writes_what_the_library_mixes() {
    let folder = Folder::new("mix");
    let voice = looped();
    let path = folder.voice("looped.8svx", &voice);
    let score = "# comment 1 2 3\r\n\n  0 4000\t1  50000 127 # more\n100 3000 0 F#3 90\r\n#\n100 0.5s 1 A4 1#\n";
    run_mix(&folder, &path, score, &[]).fails(2, "score line 6: VELOCITY takes a whole number from 0 to 255");
    let score = score.replace("1#", "1 #");
    // F#3 has 184.997 Hz: × 4 samples × 65,536 / 8,000 is 6,061.99. A4 in octave 1 is 440 × 8 × 65,536 / 8,000.
    let entries = [
        entry(0, 4_000, 1, 50_000, 127),
        entry(100, 3_000, 0, 6_062, 90),
        entry(100, 4_000, 1, 28_836, 1),
    ];
    // The first is over last, 30 ms after its key-up.
    let expected = mixed(&voice, &entries, 8_000, 4_240);
    assert!(expected[2 * 4_200..].iter().any(|&v| v != 0));
    let ran = run_mix(&folder, &path, &score, &["--rate=8000"]).well();
    let out = folder.path("out.wav");
    assert_eq!(
        ran.out,
        format!("{}: 4,240 frames at 8,000 Hz, 530 ms\n", out.display())
    );
    assert_eq!(wav(&folder.read("out.wav")), (8_000, expected.clone()));
    let ran = run(&[&"mix", &path, &folder.path("score"), &"-", &"--rate=8000"]).well();
    assert_eq!(ran.bytes, folder.read("out.wav"));
    // Longer than a block, and shorter than the mix.
    for (seconds, frames) in [
        ("--seconds=0.7", 5_600),
        ("--seconds=0.5201", 4_160),
        ("--seconds=0", 0),
    ] {
        let (_, values) = mix(&folder, &path, &score, &["--rate=8000", seconds]);
        assert_eq!(values, mixed(&voice, &entries, 8_000, frames), "{seconds}");
    }
    assert_eq!(folder.names(), "looped.8svx out.wav score");
}

#[test]
fn mix_ends_when_nothing_sounds() {
    let folder = Folder::new("mix-end");
    let path = folder.voice("looped.8svx", &looped());
    let example = folder.file("example.8svx", &EXAMPLE);
    let frames = |voice: &Path, score: &str, options: &[&str]| mix(&folder, voice, score, options).1.len() / 2;
    // A release of 30 ms, from the last key-up on, wherever it stands.
    assert_eq!(frames(&path, "0 1000 0 65536 127", &["--rate=1000"]), 1_030);
    assert_eq!(
        frames(
            &path,
            "500 1000 0 65536 127\n500 600 0 65536 127\n501 501 1 1 1",
            &["--rate=1000"]
        ),
        1_030
    );
    // One sample at half a sample a frame lasts two frames, held or not.
    assert_eq!(frames(&example, "3 4294967295 0 32768 127", &[]), 5);
    assert_eq!(mix(&folder, &example, "3 9 0 32768 127", &[]).1[6..], [-512; 4]);
    // Let go at its start and without a release a note never sounds, and the mix doesn't wait for it.
    assert_eq!(frames(&example, "0 1 0 32768 127\n5000 5000 0 32768 127", &[]), 1);
    assert_eq!(frames(&example, "7 7 0 32768 127", &[]), 0);
    assert_eq!(frames(&example, "0 1 0 1 127\n4294967295 4294967295 0 1 127", &[]), 1);
    // The default rate is a stem's.
    assert_eq!(mix(&folder, &example, "0s 1s 0 65536 127", &[]).0, 44_100);
}

#[test]
fn mix_sums_before_it_holds() {
    let folder = Folder::new("mix-sums");
    let path = folder.voice("stereo.8svx", &stereo());
    // Left 1, -2, 3 and right -128, 127, 0, and once more a frame later.
    let score = "0 9 0 65536 127\n0 9 0 65536 127\n1 9 0 65536 127";
    assert_eq!(
        mix(&folder, &path, score, &[]).1,
        [512, -32_768, -768, 32_256, 1_024, 32_512, 768, 0]
    );
}

#[test]
fn notes_have_names() {
    let folder = Folder::new("mix-notes");
    let mut voice = looped();
    let path = folder.voice("looped.8svx", &voice);
    // 4 samples a cycle in octave 0 and 8 in octave 1.
    for (note, octave, step) in [
        ("A4", 0, 2_615),
        ("A-4", 1, 5_231),
        ("C4", 1, 3_110),
        ("c-5", 0, 3_110),
        ("Bb2", 0, 693),
        ("A#2", 0, 693),
        ("F#3", 0, 1_100),
        ("Gb3", 0, 1_100),
        ("C0", 0, 97),
        ("B9", 1, 187_891),
    ] {
        let by_note = mix(&folder, &path, &format!("0 2000 {octave} {note} 127"), &[]);
        let by_step = mix(&folder, &path, &format!("0 2000 {octave} {step} 127"), &[]);
        assert!(by_note == by_step, "{note}");
    }
    voice.header.samples_per_hi_cycle = 0;
    let unknown = folder.voice("unknown.8svx", &voice);
    mix(&folder, &unknown, "0 100 0 65536 127", &[]);
    run_mix(&folder, &unknown, "\n0 100 0 C4 127", &["--force"])
        .fails(2, "score line 2: C4 can't be reckoned, since the voice doesn't tell");
    voice.header.samples_per_hi_cycle = 4_000_000_000;
    let low = folder.voice("low.8svx", &voice);
    run_mix(&folder, &low, "0 100 1 C4 127", &["--force"]).fails(
        2,
        "score line 1: C4 from octave 1 needs a step above 16,777,216 at 44,100 frames",
    );
    run_mix(&folder, &path, "0 100 0 C0 127", &["--force", "--rate=192000000"]).fails(2, "needs a step below 1 at");
}

#[test]
fn an_unreadable_line_is_told() {
    let folder = Folder::new("mix-lines");
    let path = folder.voice("looped.8svx", &looped());
    let good = "0 100 0 65536 127";
    for (line, told) in [
        (
            "0 100 0 65536",
            "4 words, not the five START KEY-UP OCTAVE STEP VELOCITY",
        ),
        ("0 100 0 65536 127 1", "6 words, not the five"),
        ("0", "1 word, not the five"),
        (
            "-1 100 0 65536 127",
            "START takes a frame from 0 to 4,294,967,295, without commas, or",
        ),
        ("0 4294967296 0 65536 127", "KEY-UP takes a frame"),
        ("0 97392s 0 65536 127", "KEY-UP takes a frame"),
        ("0 1,000 0 65536 127", "KEY-UP takes a frame"),
        ("0 1e3s 0 65536 127", "KEY-UP takes a frame"),
        ("0 s 0 65536 127", "KEY-UP takes a frame"),
        ("0 100 256 65536 127", "OCTAVE takes a whole number from 0 to 255"),
        ("0 100 0 4294967296 127", "STEP takes a whole number"),
        (
            "0 100 0 H4 127",
            "STEP takes a whole number from 0 to 4,294,967,295, without commas, or a note such as",
        ),
        ("0 100 0 C\u{7}4 127", "STEP takes"),
        ("0 100 0 65536 loud", "VELOCITY takes a whole number from 0 to 255"),
        ("0 100 0 65536 +9", "VELOCITY takes"),
    ] {
        let score = format!("# a score\n\n{good}\n{line}\n{good}\n");
        run_mix(&folder, &path, &score, &[]).fails(2, &format!("score line 4: {told}"));
    }
    assert_eq!(folder.names(), "looped.8svx score");
    for empty in ["", "\n\n", "# 0 100 0 65536 127\n"] {
        run_mix(&folder, &path, empty, &[]).fails(2, "score: there is no note in it");
    }
    // What isn't UTF-8 may be in a comment.
    let bytes = [&b"\xEF\xBB\xBF# K\xFCnstler\n0 100 0 65536 12"[..], &b"\xB2"[..]].concat();
    let latin = folder.file("latin", &bytes);
    run(&[&"mix", &path, &latin, &folder.path("out.wav")]).fails(2, "latin line 2: VELOCITY takes");
    folder.file("latin", &bytes[..bytes.len() - 1]);
    run(&[&"mix", &path, &latin, &folder.path("out.wav")]).well();
}

#[test]
fn a_score_that_cannot_be_read_is_told() {
    let folder = Folder::new("mix-unread");
    let (path, out) = (folder.voice("v", &looped()), folder.path("out.wav"));
    run(&[&"mix", &path, &folder.path("missing"), &out]).fails(2, "missing: no such file or directory");
    run(&[&"mix", &path, &folder.0, &out]).fails(2, "is a directory");
    run(&[&"mix", &path, &"/dev/zero", &out]).fails(2, "/dev/zero: is larger than 1 MiB");
    run(&[&"mix", &path, &"/dev/null", &out]).fails(2, "/dev/null: there is no note in it");
    // The two in the wrong order.
    let score = folder.file("score", b"0 100 0 65536 127");
    run(&[&"mix", &score, &path, &out]).fails(1, "score: refused by 2: ");
    run(&[&"mix", &path, &path, &out]).fails(2, "v line 1: ");
    assert_eq!(folder.names(), "score v");
}

#[test]
fn a_refused_score_names_its_line() {
    let folder = Folder::new("mix-refused");
    let path = folder.voice("looped.8svx", &looped());
    folder.old_files(&["out.wav"]);
    let good = "10 100 0 65536 127";
    for (line, number) in [
        ("9 100 0 65536 127", 45),
        ("9 8 0 65536 127", 45),
        ("10 9 0 65536 127", 47),
        ("10 100 2 65536 127", 31),
        ("10 100 0 0 127", 32),
        ("10 100 0 16777217 127", 32),
        ("10 100 0 65536 0", 44),
        ("10 100 0 65536 128", 44),
    ] {
        // A line before it that is good, and one behind it that the same and other rules turn back.
        let score = format!("{good}\n# here\n{good}\n{line}\n{line}\n11 100 9 0 0\n");
        let words = format!("score line 4: refused by {number}: ");
        run_mix(&folder, &path, &score, &[]).fails(1, &words);
        run_mix(&folder, &path, &score, &["--force", "--seconds=1"]).fails(1, &words);
    }
    // 45 and 47 come before the rest, wherever they are.
    let score = format!("{good}\n10 100 0 0 0\n{good}\n9 100 0 1 1\n");
    run_mix(&folder, &path, &score, &[]).fails(1, "score line 4: refused by 45: ");
    // What no entry is to blame for.
    let seventeen = format!("{good}\n").repeat(17);
    run_mix(&folder, &path, &seventeen, &[]).fails(1, "score: refused by 46: the score has more than 16 entries\n");
    for rate in ["--rate=0", "--rate=192001", "--rate=4294967295"] {
        run_mix(&folder, &path, good, &[rate]).fails(1, "looped.8svx: refused by 33: ");
    }
    run_mix(&folder, &path, "10 100 0 C4 127", &["--rate=0"]).fails(1, "looped.8svx: refused by 33: ");
    let bad = folder.voice("unplayable.8svx", &unplayable());
    run_mix(&folder, &bad, good, &[]).fails(1, "unplayable.8svx: refused by 21: ");
    run_mix(&folder, &bad, "10 9 0 65536 127", &[]).fails(1, "score line 1: refused by 47: ");
    assert_eq!(folder.names(), "looped.8svx out.wav score unplayable.8svx");
    folder.are_kept(&["out.wav"]);
}

#[test]
fn a_mix_that_is_too_long_is_told() {
    let folder = Folder::new("mix-long");
    let path = folder.voice("looped.8svx", &looped());
    let held = "0 4294967295 0 65536 127";
    let words = "mix: 4,294,967,295 frames are more than ten minutes; by --seconds ask for a length";
    run_mix(&folder, &path, held, &["--rate=1000"]).fails(2, words);
    // Ten minutes are a key-up at 599.97 s and a release of 30 ms.
    run_mix(&folder, &path, "0 599971 0 65536 127", &["--rate=1000"]).fails(2, "mix: 600,001 frames are more than ten");
    assert_eq!(
        mix(&folder, &path, "0 599970 0 65536 127", &["--rate=1000"]).1.len(),
        2 * 600_000
    );
    folder.old_files(&["out.wav"]);
    run_mix(&folder, &path, held, &["--seconds=1000000"]).fails(2, "4 GiB of a WAV file hold; by --seconds ask");
    run_mix(&folder, &path, held, &["--seconds=1000000", "--force"]).fails(2, "4 GiB");
    folder.are_kept(&["out.wav"]);
    assert_eq!(
        mix(&folder, &path, held, &["--seconds=0.01", "--rate=1000"]).1.len(),
        2 * 10
    );
    assert_eq!(folder.names(), "looped.8svx out.wav score");
}

#[test]
fn mix_writes_over_no_file() {
    let folder = Folder::new("mix-taken");
    let voice = looped();
    let (path, score) = (folder.voice("v", &voice), "0 2000 0 65536 127");
    let (taken, spared) = (
        "out.wav: is there already; --force writes over it",
        "isn't written over",
    );
    folder.old_files(&["out.wav"]);
    run_mix(&folder, &path, score, &[]).fails(2, taken);
    folder.are_kept(&["out.wav"]);
    symlink("out.wav", folder.path("link")).expect("a link");
    fs::hard_link(folder.path("score"), folder.path("hard")).expect("a second name");
    let score_path = folder.path("score");
    for name in ["v", "score", "hard"] {
        run(&[&"mix", &path, &score_path, &folder.path(name)]).fails(2, spared);
        run(&[&"mix", &path, &score_path, &folder.path(name), &"--force"]).fails(2, spared);
    }
    run(&[&"mix", &path, &score_path, &folder.path("missing/out.wav")]).fails(2, "no such file or directory");
    run(&[&"mix", &path, &score_path, &folder.0, &"--force"]).fails(2, "is a directory");
    run_in_little_room(&[&"mix", &path, &score_path, &folder.path("link"), &"--force"])
        .fails(2, "link: file too large");
    run_in_little_room(&[&"mix", &path, &score_path, &folder.path("new")]).fails(2, "new: file too large");
    assert_eq!(folder.names(), "hard link out.wav score v");
    folder.are_kept(&["out.wav"]);
    // By force, through a link, which stays.
    run(&[&"mix", &path, &score_path, &folder.path("link"), &"--force"]).well();
    let expected = mixed(&voice, &[entry(0, 2_000, 0, 65_536, 127)], 44_100, 2_000 + 1_323);
    assert_eq!(wav(&folder.read("out.wav")), (44_100, expected));
    assert!(folder.path("link").is_symlink());
    run(&[&"mix", &path, &score_path, &"/dev/null"]).fails(2, "is there already");
    run(&[&"mix", &path, &score_path, &"/dev/null", &"--force"]).well();
    if Path::new("/dev/full").exists() {
        run(&[&"mix", &path, &score_path, &"/dev/full", &"--force"]).fails(2, "/dev/full: no space left");
    }
}

#[test]
fn null_finds_no_difference() {
    let folder = Folder::new("null");
    let path = folder.voice("looped.8svx", &looped());
    let out = run(&[&"null", &path, &"--rate=8000", &"--octave=1", &"--block=4000"])
        .well()
        .out;
    let rest =
        ["7", "64", "1,000", "4,096", "4,000"].map(|n| format!("blocks of {n}: 0 frames differ, 4,240 sounding\n"));
    assert_eq!(
        out,
        "blocks of 1: 8,000 frames, 4,240 sounding\n".to_string() + &rest.concat()
    );
    let out = run(&[&"null", &path, &"--rate=8000", &"--velocity=5", &"--octave=1"])
        .well()
        .out;
    assert_eq!(out.matches(": 0 frames differ, 4,240 sounding").count(), 4);
    let out = run(&[&"null", &path, &"--rate=8000", &"--frames=100", &"--key-up=7"])
        .well()
        .out;
    assert!(
        out.starts_with("blocks of 1: 100 frames, 100 sounding\nblocks of 7: 0 frames differ, 100 sounding\n"),
        "{out}"
    );
}

#[test]
fn raw_writes_signed_bytes() {
    let folder = Folder::new("raw");
    let (path, out) = (folder.voice("stereo.8svx", &stereo()), folder.path("out.raw"));
    let expected = [0x01, 0x80, 0xFE, 0x7F, 0x03, 0x00];
    assert_eq!(
        run(&[&"raw", &path, &out]).well().out,
        format!("{}: 6 bytes\n", out.display())
    );
    assert_eq!(fs::read(&out).expect("a file was written"), expected);
    assert_eq!(run(&[&"raw", &path, &"-"]).well().bytes, expected);
    let voice = looped();
    let bytes: Vec<u8> = voice.channels[0].flattened().iter().map(|s| *s as u8).collect();
    assert_eq!(
        run(&[&"raw", &folder.voice("looped.8svx", &voice), &"-"]).well().bytes,
        bytes
    );
}

#[test]
fn rewrite_keeps_the_voice() {
    let folder = Folder::new("rewrite");
    let (voice, out) = (looped(), folder.path("out.8svx"));
    let path = folder.voice("looped.8svx", &voice);
    let written = |option: &[&str]| {
        let mut arguments: Vec<&dyn AsRef<OsStr>> = vec![&"rewrite", &path, &out];
        option.iter().for_each(|o| arguments.push(o));
        run(&arguments).well();
        svx::parse_voice(&fs::read(&out).expect("a file was written")).expect("a file that is read")
    };
    assert_eq!(written(&[]), voice);
    assert_eq!(written(&["--raw"]), voice);
    let mut packed = written(&["--fibonacci"]);
    assert_eq!(packed.header.compression_byte, 1);
    assert_eq!(
        packed.channels[0].octaves.iter().map(Vec::len).collect::<Vec<_>>(),
        [12, 24]
    );
    // Compressed as it is, it stays compressed, and what was decoded once is written again without loss.
    let again = folder.path("again.8svx");
    run(&[&"rewrite", &out, &again]).well();
    assert_eq!(svx::parse_voice(&fs::read(&again).expect("a file")), Ok(packed.clone()));
    run(&[&"rewrite", &out, &again, &"--raw"]).well();
    packed.header.compression_byte = 0;
    assert_eq!(svx::parse_voice(&fs::read(&again).expect("a file")), Ok(packed));
}

/// Takes a WAV file of 8-bit frames apart: its rate, and the samples of each channel.
fn octave_wav(bytes: &[u8]) -> (u32, Vec<Vec<i8>>) {
    let word = |at: usize| u32::from_le_bytes(bytes[at..at + 4].try_into().expect("four bytes"));
    let (channels, data) = (word(20) >> 16, word(40));
    assert_eq!((&bytes[..4], word(4)), (&b"RIFF"[..], 36 + data.next_multiple_of(2)));
    assert_eq!((&bytes[8..16], word(16)), (&b"WAVEfmt "[..], 16));
    assert_eq!(word(20) & 0xFFFF, 1, "PCM");
    assert_eq!(word(28), channels * word(24), "bytes a second");
    assert_eq!(word(32), channels | 8 << 16, "bytes a frame, bits a value");
    assert_eq!((&bytes[36..40], bytes.len()), (&b"data"[..], 8 + word(4) as usize));
    let channels = channels as usize;
    let values = &bytes[44..44 + data as usize];
    let side = |i| values.iter().skip(i).step_by(channels);
    let sides = (0..channels).map(|i| side(i).map(|value| (i16::from(*value) - 128) as i8).collect());
    (word(24), sides.collect())
}

/// What the file of an octave of a voice has.
fn octave(voice: &Voice, k: usize) -> (u32, Vec<Vec<i8>>) {
    let sides = voice.channels.iter().map(|channel| channel.octaves[k].clone());
    (u32::from(voice.header.samples_per_sec), sides.collect())
}

#[test]
fn wave_writes_an_octave() {
    let folder = Folder::new("wave");
    let (voice, out) = (looped(), folder.path("out.wav"));
    let path = folder.voice("looped.8svx", &voice);
    let ran = run(&[&"wave", &path, &out]).well();
    assert_eq!(
        ran.out,
        format!("{}: 12 frames at 8,000 Hz, 1.5 ms, mono\n", out.display())
    );
    assert_eq!(octave_wav(&folder.read("out.wav")), octave(&voice, 0));
    run(&[&"wave", &path, &folder.path("low.wav"), &"--octave", &"1"]).well();
    assert_eq!(octave_wav(&folder.read("low.wav")), octave(&voice, 1));
    let ran = run(&[&"wave", &path, &"-", &"--octave=1", &"--force"]).well();
    assert_eq!(ran.bytes, folder.read("low.wav"));
    assert_eq!(folder.names(), "looped.8svx low.wav out.wav");
}

#[test]
fn wave_pads_odd_lengths_and_joins_sides() {
    let folder = Folder::new("wave-odd");
    let path = folder.file("example.8svx", &EXAMPLE);
    let ran = run(&[&"wave", &path, &"-"]).well();
    assert_eq!(ran.bytes[40..], [1, 0, 0, 0, 126, 0]);
    let path = folder.voice("stereo.8svx", &stereo());
    let ran = run(&[&"wave", &path, &folder.path("out.wav")]).well();
    assert!(
        ran.out.ends_with(": 3 frames at 8,000 Hz, 0.375 ms, stereo\n"),
        "{}",
        ran.out
    );
    assert_eq!(folder.read("out.wav")[40..], [6, 0, 0, 0, 129, 0, 126, 255, 131, 128]);
    assert_eq!(octave_wav(&folder.read("out.wav")), octave(&stereo(), 0));
}

#[test]
fn wave_numbers_the_files_of_all_octaves() {
    let folder = Folder::new("wave-all");
    let voice = looped();
    let path = folder.voice("v", &voice);
    fs::create_dir(folder.path("a.b")).expect("a folder");
    for (out, first, second) in [
        ("out.wav", "out-0.wav", "out-1.wav"),
        ("out", "out-0", "out-1"),
        ("two.dots.wav", "two.dots-0.wav", "two.dots-1.wav"),
        ("end.", "end-0.", "end-1."),
        (".hidden", ".hidden-0", ".hidden-1"),
        ("a.b/out", "a.b/out-0", "a.b/out-1"),
    ] {
        let ran = run(&[&"wave", &path, &folder.path(out), &"--all"]).well();
        let (high, low) = (folder.path(first), folder.path(second));
        let lines = format!(
            "{}: 12 frames at 8,000 Hz, 1.5 ms, mono\n{}: 24 frames at 8,000 Hz, 3 ms, mono\n",
            high.display(),
            low.display()
        );
        assert_eq!(ran.out, lines);
        assert_eq!(octave_wav(&folder.read(first)), octave(&voice, 0));
        assert_eq!(octave_wav(&folder.read(second)), octave(&voice, 1));
        assert!(!folder.path(out).exists(), "{out}");
        fs::remove_file(high)
            .and_then(|()| fs::remove_file(low))
            .expect("two files");
    }
    assert_eq!(folder.names(), "a.b v");
    run(&[&"wave", &path, &format!("{}/", folder.0.display()), &"--all"]).fails(2, "is a directory");
}

#[test]
fn wave_of_lengths_of_zero_is_one_file() {
    let folder = Folder::new("wave-zero");
    let mut voice = looped();
    voice.header.one_shot_hi_samples = 0;
    voice.header.repeat_hi_samples = 0;
    voice.channels[0].octaves = vec![vec![5, 6, 7]];
    let path = folder.voice("v", &voice);
    run(&[&"wave", &path, &folder.path("out.wav"), &"--all"]).well();
    assert_eq!(folder.names(), "out-0.wav v");
    assert_eq!(octave_wav(&folder.read("out-0.wav")), octave(&voice, 0));
    run(&[&"wave", &path, &folder.path("one"), &"--octave=1"]).fails(1, "refused by 31: ");
    voice.channels[0].octaves = vec![vec![]];
    let ran = run(&[&"wave", &folder.voice("v", &voice), &folder.path("none.wav")]).well();
    assert!(ran.out.ends_with(": 0 frames at 8,000 Hz, 0 ms, mono\n"), "{}", ran.out);
    assert_eq!(folder.read("none.wav").len(), 44);
}

#[test]
fn a_refused_octave_leaves_no_file() {
    let folder = Folder::new("wave-refused");
    let mut voice = looped();
    let path = folder.voice("v", &voice);
    voice.header.samples_per_sec = 0;
    let (no_rate, out) = (folder.voice("w", &voice), folder.path("out.wav"));
    folder.old_files(&["out.wav", "out-0.wav", "out-1.wav"]);
    let names = folder.names();
    for option in ["--octave=2", "--octave=255"] {
        run(&[&"wave", &path, &folder.path("new.wav"), &option]).fails(1, "v: refused by 31: ");
        run(&[&"wave", &path, &out, &option]).fails(1, "v: refused by 31: ");
        run(&[&"wave", &path, &out, &option, &"--force"]).fails(1, "v: refused by 31: ");
        run(&[&"wave", &path, &"-", &option]).fails(1, "v: refused by 31: ");
        run(&[&"wave", &no_rate, &"-", &option]).fails(1, "w: refused by 31: ");
    }
    for option in ["--octave=1", "--all"] {
        run(&[&"wave", &no_rate, &folder.path("new.wav"), &option]).fails(1, "w: refused by 41: ");
        run(&[&"wave", &no_rate, &out, &option, &"--force"]).fails(1, "w: refused by 41: ");
    }
    run(&[&"wave", &no_rate, &"-"]).fails(1, "w: refused by 41: the voice's rate is 0\n");
    assert_eq!(folder.names(), names);
    folder.are_kept(&["out.wav", "out-0.wav", "out-1.wav"]);
}

#[test]
fn wave_writes_over_no_file() {
    let folder = Folder::new("wave-taken");
    let path = folder.voice("v", &looped());
    let (out, taken) = (folder.path("out.wav"), "is there already; --force writes over it");
    folder.old_files(&["out.wav"]);
    run(&[&"wave", &path, &out]).fails(2, &format!("out.wav: {taken}"));
    // Whichever of the names is taken, none is written.
    for name in ["out-0.wav", "out-1.wav"] {
        folder.old_files(&[name]);
        run(&[&"wave", &path, &out, &"--all"]).fails(2, &format!("{name}: {taken}"));
        assert_eq!(folder.names(), format!("{name} out.wav v"));
        folder.are_kept(&[name]);
        fs::remove_file(folder.path(name)).expect("the file");
    }
    // A link takes its name, whether it leads to a file or not, and so does a device.
    for to in ["out.wav", "nowhere"] {
        symlink(to, folder.path("link")).expect("a link");
        run(&[&"wave", &path, &folder.path("link")]).fails(2, taken);
        fs::remove_file(folder.path("link")).expect("the link");
    }
    run(&[&"wave", &path, &"/dev/null"]).fails(2, taken);
    assert_eq!(folder.names(), "out.wav v");
    folder.are_kept(&["out.wav"]);
}

#[test]
fn wave_writes_over_files_by_force() {
    let folder = Folder::new("wave-force");
    let voice = looped();
    let (path, out) = (folder.voice("v", &voice), folder.file("out.wav", b"old"));
    fs::set_permissions(&out, Permissions::from_mode(0o640)).expect("permissions");
    folder.file("out-1.wav", &[7; 9_999]);
    fs::create_dir(folder.path("f")).expect("a folder");
    symlink("../out.wav", folder.path("f/link")).expect("a link");
    symlink("f/link", folder.path("far")).expect("a link");
    symlink("f/new", folder.path("nowhere")).expect("a link");
    run(&[&"wave", &path, &folder.path("far"), &"--force"]).well();
    assert_eq!(octave_wav(&folder.read("out.wav")), octave(&voice, 0));
    assert_eq!(fs::metadata(&out).expect("a file").permissions().mode() & 0o777, 0o640);
    run(&[&"wave", &path, &folder.path("nowhere"), &"--force", &"--octave=1"]).well();
    assert_eq!(octave_wav(&folder.read("f/new")), octave(&voice, 1));
    assert!(["far", "nowhere"].iter().all(|name| folder.path(name).is_symlink()));
    // One name is taken and the other isn't.
    run(&[&"wave", &path, &out, &"--all", &"--force"]).well();
    assert_eq!(octave_wav(&folder.read("out-0.wav")), octave(&voice, 0));
    assert_eq!(octave_wav(&folder.read("out-1.wav")), octave(&voice, 1));
    assert_eq!(folder.names(), "f far nowhere out-0.wav out-1.wav out.wav v");
    assert_eq!(fs::read_dir(folder.path("f")).expect("a folder").count(), 2);
}

#[test]
fn wave_looks_at_all_names_first() {
    let folder = Folder::new("wave-names");
    let (path, out) = (folder.voice("in-1.wav", &looped()), folder.path("out.wav"));
    let bytes = folder.read("in-1.wav");
    folder.old_files(&["in-0.wav", "out-0.wav"]);
    fs::create_dir(folder.path("out-1.wav")).expect("a folder");
    fs::create_dir(folder.path("to")).expect("a folder");
    symlink("to-1.wav", folder.path("to-0.wav")).expect("a link");
    let names = folder.names();
    run(&[&"wave", &path, &out, &"--all", &"--force"]).fails(2, "out-1.wav: is a directory");
    run(&[&"wave", &path, &folder.path("in.wav"), &"--all", &"--force"]).fails(2, "in-1.wav: is the file that is read");
    let words = format!("leads to the same file as {}", folder.path("to-0.wav").display());
    run(&[&"wave", &path, &folder.path("to.wav"), &"--all", &"--force"]).fails(2, &words);
    run(&[&"wave", &path, &folder.path("missing/out.wav"), &"--all"]).fails(2, "missing/out-0.wav: no such file");
    run(&[&"wave", &path, &path.join("out.wav"), &"--all"]).fails(2, "in-1.wav/out-0.wav: not a directory");
    run(&[&"wave", &path, &folder.path(&"x".repeat(254)), &"--all"]).fails(2, "file name too long");
    for out in ["", "missing/", "missing/."] {
        run(&[&"wave", &path, &folder.path("to").join(out), &"--force"]).fails(2, "directory");
    }
    assert_eq!(folder.names(), names);
    folder.are_kept(&["in-0.wav", "out-0.wav"]);
    assert_eq!(folder.read("in-1.wav"), bytes);
}

/// Runs the tool in a shell that lets no file grow past 4 KiB, and has the signal ignored that would end the tool.
fn run_in_little_room(arguments: &[&dyn AsRef<OsStr>]) -> Ran {
    run_in_blocks(8, arguments)
}

/// The same with room for so many blocks of 512 bytes in each file.
fn run_in_blocks(blocks: u32, arguments: &[&dyn AsRef<OsStr>]) -> Ran {
    let limited = format!("trap '' XFSZ; ulimit -f {blocks}; exec \"$@\"");
    let script: [&dyn AsRef<OsStr>; 4] = [&"-c", &limited, &"sh", &TOOL];
    run_program("sh", &[&script, arguments].concat())
}

#[test]
fn octaves_that_cannot_be_finished_are_removed() {
    let folder = Folder::new("wave-half");
    let mut voice = looped();
    voice.header.one_shot_hi_samples = 3_000;
    voice.header.repeat_hi_samples = 0;
    voice.channels[0].octaves = vec![wave(3_000, 7), wave(6_000, 7)];
    let (path, out) = (folder.voice("v", &voice), folder.path("out.wav"));
    run_in_little_room(&[&"wave", &path, &out, &"--octave=1"]).fails(2, "out.wav: file too large");
    // The first octave is complete, and goes with the second.
    run_in_little_room(&[&"wave", &path, &out, &"--all"]).fails(2, "out-1.wav: file too large");
    assert_eq!(folder.names(), "v");
    folder.old_files(&["out-0.wav", "out-1.wav"]);
    run_in_little_room(&[&"wave", &path, &out, &"--all", &"--force"]).fails(2, "out-1.wav: file too large");
    assert_eq!(folder.names(), "out-0.wav out-1.wav v");
    folder.are_kept(&["out-0.wav", "out-1.wav"]);
    run_in_little_room(&[&"wave", &path, &out]).well();
}

/// Makes a pipe with a name, if that can be done here.
fn pipe(path: &Path) -> bool {
    Command::new("mkfifo")
        .arg(path)
        .status()
        .is_ok_and(|status| status.success())
}

#[test]
fn wave_writes_to_devices_and_pipes_by_force() {
    let folder = Folder::new("wave-pipe");
    let (path, out) = (folder.voice("v", &looped()), folder.path("out.wav"));
    run(&[&"wave", &path, &"/dev/null", &"--force"]).well();
    if Path::new("/dev/full").exists() {
        run(&[&"wave", &path, &"/dev/full", &"--force"]).fails(2, "/dev/full: no space left");
        folder.old_files(&["out-0.wav"]);
        symlink("/dev/full", folder.path("out-1.wav")).expect("a link");
        run(&[&"wave", &path, &out, &"--all", &"--force"]).fails(2, "out-1.wav: no space left");
        assert_eq!(folder.names(), "out-0.wav out-1.wav v");
        folder.are_kept(&["out-0.wav"]);
        fs::remove_file(folder.path("out-1.wav")).expect("the link");
    }
    if pipe(&folder.path("out-1.wav")) {
        let mut pipe = both_ends(&folder.path("out-1.wav"));
        run(&[&"wave", &path, &out, &"--all", &"--force"]).well();
        assert_eq!(octave_wav(&folder.read("out-0.wav")), octave(&looped(), 0));
        assert_eq!(folder.names(), "out-0.wav out-1.wav v");
        let about = fs::metadata(folder.path("out-1.wav")).expect("a pipe");
        assert!(about.file_type().is_fifo());
        let mut bytes = [0; 44 + 24];
        pipe.read_exact(&mut bytes).expect("a whole file");
        assert_eq!(octave_wav(&bytes), octave(&looped(), 1));
    }
}

/// Opens both ends of a pipe, which waits for nobody.
fn both_ends(path: &Path) -> File {
    File::options().read(true).write(true).open(path).expect("a pipe")
}

#[test]
fn a_file_that_comes_in_the_meantime_undoes_all() {
    let folder = Folder::new("wave-meantime");
    let mut voice = looped();
    voice.header.ct_octave = 4;
    voice.channels[0].octaves.extend([wave(48, 5), wave(96, 3)]);
    let path = folder.voice("v", &voice);
    folder.old_files(&["out-0.wav"]);
    let number = || fs::metadata(folder.path("out-0.wav")).expect("a file").ino();
    let old_number = number();
    if !pipe(&folder.path("out-3.wav")) {
        return;
    }
    std::thread::scope(|scope| {
        let pipe = scope.spawn(|| {
            // Once there is a hidden file, the tool has looked at all names. It waits for the pipe to be opened.
            let looked = || folder.names().contains(".svx-");
            (0..10_000)
                .take_while(|_| !looked())
                .for_each(|_| std::thread::sleep(Duration::from_millis(1)));
            fs::create_dir(folder.path("out-2.wav")).expect("a folder");
            both_ends(&folder.path("out-3.wav"))
        });
        let ran = run(&[&"wave", &path, &folder.path("out.wav"), &"--all", &"--force"]);
        ran.fails(2, "out-2.wav: isn't an ordinary file");
        pipe.join().expect("a pipe");
    });
    assert_eq!(folder.names(), "out-0.wav out-2.wav out-3.wav v");
    folder.are_kept(&["out-0.wav"]);
    assert_eq!(number(), old_number);
}

#[test]
fn crossing_prints_the_nearest_place() {
    let folder = Folder::new("crossing");
    let mut voice = looped();
    voice.channels = vec![ChannelSamples {
        octaves: vec![vec![3, -1, -2, 4, 5, 0, 0, 7, 7, 7, 7, 7], vec![-9; 24]],
    }];
    let file = folder.voice("v", &voice);
    let crossing = |options: &[&str]| {
        let mut arguments: Vec<&dyn AsRef<OsStr>> = vec![&"crossing", &file];
        options.iter().for_each(|option| arguments.push(option));
        run(&arguments)
    };
    for (place, found) in [
        ("0", "1\n"),
        ("2", "1\n"),
        ("3", "3\n"),
        ("18446744073709551615", "3\n"),
    ] {
        assert_eq!(crossing(&["--octave=0", "--place", place]).well().out, found);
    }
    assert_eq!(crossing(&["--octave=0", "--place=12", "--reach=9"]).well().out, "3\n");
    crossing(&["--octave=0", "--place=12", "--reach=8"])
        .fails(1, "v: refused by 43: there is no crossing within reach");
    crossing(&["--octave=0", "--place=2", "--reach=0"]).fails(1, "refused by 43: ");
    crossing(&["--octave=1", "--place=2"]).fails(1, "refused by 43: ");
    crossing(&["--octave=2", "--place=2"]).fails(1, "refused by 31: ");
    crossing(&["--octave=0", "--place=2", "--right"]).fails(2, "v: has one channel, and no right side");
}

#[test]
fn crossing_looks_at_one_side() {
    let folder = Folder::new("crossing-sides");
    let file = folder.voice("v", &stereo());
    // Left 1, -2, 3 and right -128, 127, 0.
    let last = |side: &[&str]| {
        let mut arguments: Vec<&dyn AsRef<OsStr>> = vec![&"crossing", &file, &"--octave=0", &"--place=3"];
        side.iter().for_each(|option| arguments.push(option));
        run(&arguments).well().out
    };
    assert_eq!((last(&[]).as_str(), last(&["--right"]).as_str()), ("2\n", "1\n"));
}

/// A stored voice, put together here.
fn stored(sheet: &[u8], left: &[i8], right: &[i8]) -> Vec<u8> {
    let lengths = [sheet.len(), left.len(), right.len()].map(|length| length as u64);
    let sides = left.iter().chain(right).map(|value| *value as u8);
    [&with_lengths(lengths)[..], sheet, &sides.collect::<Vec<u8>>()].concat()
}

/// What a stored voice has before its sheet.
fn with_lengths(lengths: [u64; 3]) -> Vec<u8> {
    [&b"8SVXDIFF"[..], &lengths.map(u64::to_be_bytes).concat()].concat()
}

#[test]
fn vault_stores_sheet_and_values() {
    let folder = Folder::new("vault");
    let (path, out) = (folder.file("example.8svx", &EXAMPLE), folder.path("out"));
    let ran = run(&[&"vault", &path, &out]).well();
    assert_eq!(ran.out, format!("{}: 54 bytes, 1 channel of 1 sample\n", out.display()));
    let mut expected = b"8SVXDIFF".to_vec();
    expected.extend([0, 0, 0, 0, 0, 0, 0, 21, 0, 0, 0, 0, 0, 0, 0, 1, 0, 0, 0, 0, 0, 0, 0, 0]);
    // VHDR is record 1. The only sample is -2.
    expected.push(1);
    expected.extend(&EXAMPLE[20..40]);
    expected.push(0xFE);
    assert_eq!(folder.read("out"), expected);
    // 1, -3, 5 and -128, -1, -127: the second value of three comes last.
    let sheet = Sheet::of(&stereo()).expect("a sheet");
    let expected = stored(sheet.bytes(), &[1, 5, -3], &[-128, -127, -1]);
    let path = folder.voice("stereo.8svx", &stereo());
    let ran = run(&[&"vault", &path, &out, &"--force"]).well();
    let words = format!(": {} bytes, 2 channels of 3 samples\n", expected.len());
    assert!(ran.out.ends_with(&words), "{}", ran.out);
    assert_eq!(folder.read("out"), expected);
    // Two octaves, each for itself.
    let sheet = Sheet::of(&looped()).expect("a sheet");
    let values = svx::difference_order(&looped().header, sheet.left()).expect("an order");
    assert_eq!((values[0], values[12]), (sheet.left()[0], sheet.left()[12]));
    let path = folder.voice("looped.8svx", &looped());
    assert_eq!(
        run(&[&"vault", &path, &"-"]).well().bytes,
        stored(sheet.bytes(), &values, &[])
    );
    assert_eq!(folder.names(), "example.8svx looped.8svx out stereo.8svx");
}

#[test]
fn vault_tells_its_form() {
    let out = run(&[&"vault", &"--help"]).well().out;
    for words in [
        "8SVXDIFF",
        "big-endian",
        "even places",
        "--restore",
        "--anew",
        "--force",
    ] {
        assert!(out.contains(words), "{words}");
    }
    assert!(out.lines().all(|line| line.len() < 80), "{out}");
}

/// Stores a file and restores it: it comes back byte for byte, by standard output too.
fn comes_back(folder: &Folder, file: &Path) {
    let (store, back) = (folder.path("stored"), folder.path("back"));
    let stored = run(&[&"vault", &file, &store, &"--force"]).well();
    assert!(!stored.out.contains("written anew"), "{}", stored.out);
    let restored = run(&[&"vault", &"--restore", &store, &back, &"--force"]).well();
    let bytes = fs::read(file).expect("a file");
    assert!(folder.read("back") == bytes, "{}", file.display());
    assert!(run(&[&"vault", &file, &"-"]).well().bytes == folder.read("stored"));
    assert!(run(&[&"vault", &"--restore", &store, &"-"]).well().bytes == bytes);
    // Both lines tell of the same channels.
    let channels = |line: &str| line.split_once(" bytes, ").map(|(_, words)| words.to_string());
    assert!(channels(&stored.out).is_some());
    assert_eq!(channels(&stored.out), channels(&restored.out));
}

#[test]
fn vault_gives_the_same_file_back() {
    let folder = Folder::new("vault-back");
    let mut voices = vec![looped(), stereo(), unplayable()];
    // With lengths of 0, any samples and none, of one channel and of two.
    for samples in [vec![], vec![7], wave(1_001, 7), wave(100_000, 37)] {
        for (voice, ct_octave) in [(looped(), 0), (looped(), 255), (stereo(), 3)] {
            let channels = vec![
                ChannelSamples {
                    octaves: vec![samples.clone()]
                };
                voice.channels.len()
            ];
            let header = VoiceHeader {
                ct_octave,
                ..VoiceHeader::default()
            };
            voices.push(Voice {
                header,
                channels,
                ..voice
            });
        }
    }
    // 0 octaves count as 1.
    let mut voice = stereo();
    voice.header.ct_octave = 0;
    voices.push(voice);
    for mut voice in voices {
        comes_back(&folder, &folder.voice("v", &voice));
        voice.header.compression_byte = 1;
        comes_back(&folder, &folder.voice("v", &voice));
    }
    comes_back(&folder, &folder.file("v", &EXAMPLE));
}

#[test]
fn every_voice_of_the_repository_is_stored_and_comes_back() {
    let folder = Folder::new("vault-voices");
    for path in [repository(""), repository("unplayable")].concat() {
        let bytes = fs::read(&path).expect("a file");
        let voice = svx::parse_voice(&bytes).expect("a voice");
        assert!(svx::encode_voice(&voice) == Ok(bytes), "{}", path.display());
        comes_back(&folder, &path);
    }
}

/// A FORM 8SVX of these chunks, each padded.
fn form(chunks: &[(&[u8; 4], &[u8])]) -> Vec<u8> {
    let mut bytes = b"8SVX".to_vec();
    for (id, payload) in chunks {
        bytes.extend(*id);
        bytes.extend((payload.len() as u32).to_be_bytes());
        bytes.extend(*payload);
        bytes.resize(bytes.len().next_multiple_of(2), 0);
    }
    let length = (bytes.len() as u32).to_be_bytes();
    [b"FORM", &length[..], &bytes].concat()
}

/// Files that are read, but of which writing gives others.
fn uncommon() -> Vec<Vec<u8>> {
    let (vhdr, body) = (&EXAMPLE[20..40], &[0xFE][..]);
    let packed = [&vhdr[..15], &[1], &vhdr[16..]].concat();
    let long_vhdr = [vhdr, &[0, 0]].concat();
    let pan = 65_536u32.to_be_bytes();
    let mut padded_with_1 = EXAMPLE.to_vec();
    padded_with_1[49] = 1;
    vec![
        form(&[(b"VHDR", vhdr), (b"XYZW", b"more"), (b"BODY", body)]),
        form(&[(b"BODY", body), (b"VHDR", vhdr)]),
        form(&[(b"VHDR", vhdr), (b"BODY", body), (b"NAME", b"late")]),
        form(&[(b"PAN ", &pan), (b"VHDR", vhdr), (b"BODY", body)]),
        form(&[(b"VHDR", vhdr), (b"NAME", b" tidy "), (b"BODY", body)]),
        form(&[(b"VHDR", vhdr), (b"NAME", b"cut\0here"), (b"BODY", body)]),
        form(&[(b"VHDR", vhdr), (b"NAME", b"K\xFCnstler"), (b"BODY", body)]),
        form(&[(b"VHDR", vhdr), (b"NAME", b""), (b"BODY", body)]),
        form(&[(b"VHDR", &long_vhdr), (b"BODY", body)]),
        form(&[(b"VHDR", vhdr), (b"BODY", &[0xFE, 1, 2])]),
        // Fibonacci: the first byte isn't 0, and a sample more than there are in the octaves.
        form(&[(b"VHDR", &packed), (b"BODY", &[9, 0xFE])]),
        form(&[(b"VHDR", &packed), (b"BODY", &[0, 0xFE, 0x88])]),
        [&EXAMPLE[..], &[0]].concat(),
        [&EXAMPLE[..], b"after the FORM"].concat(),
        padded_with_1,
    ]
}

#[test]
fn vault_turns_back_what_would_not_come_back() {
    let folder = Folder::new("vault-anew");
    let (out, back, again) = (folder.path("out"), folder.path("back"), folder.path("again"));
    let words = "v: what comes back wouldn't be this file byte for byte; --anew stores the voice all the same\n";
    for file in uncommon() {
        let path = folder.file("v", &file);
        run(&[&"check", &path]).well();
        run(&[&"vault", &path, &out]).fails(2, words);
        run(&[&"vault", &path, &out, &"--force"]).fails(2, words);
        run(&[&"vault", &path, &"-"]).fails(2, words);
        assert_eq!(folder.names(), "v");
        let ran = run(&[&"vault", &path, &out, &"--anew"]).well();
        let facts = ", 1 channel of 1 sample; the voice will be written anew\n";
        assert!(ran.out.ends_with(facts), "{}", ran.out);
        run(&[&"vault", &"--restore", &out, &back]).well();
        run(&[&"rewrite", &path, &again]).well();
        assert!(folder.read("back") == folder.read("again") && folder.read("back") != file);
        // Once written anew it comes back as it is.
        comes_back(&folder, &again);
        for name in ["out", "back", "again", "stored"] {
            fs::remove_file(folder.path(name)).expect("a file");
        }
    }
    // What comes back the same isn't written anew.
    let path = folder.voice("v", &stereo());
    let ran = run(&[&"vault", &path, &out, &"--anew"]).well();
    assert!(ran.out.ends_with(" bytes, 2 channels of 3 samples\n"), "{}", ran.out);
    run(&[&"vault", &"--restore", &out, &back]).well();
    assert_eq!(folder.read("back"), folder.read("v"));
}

/// Restoring a file ends with a status and one line of these words, and writes nothing.
fn is_not_restored(folder: &Folder, file: &[u8], status: i32, words: &str) {
    let (path, out) = (folder.file("stored", file), folder.path("out"));
    let words = format!("stored: {words}");
    run(&[&"vault", &"--restore", &path, &out]).fails(status, &words);
    run(&[&"vault", &"--restore", &path, &"-"]).fails(status, &words);
    folder.old_files(&["old"]);
    run(&[&"vault", &"--restore", &path, &folder.path("old"), &"--force"]).fails(status, &words);
    folder.are_kept(&["old"]);
    assert_eq!(folder.names(), "old stored");
}

#[test]
fn a_stored_voice_in_a_wrong_form_is_told() {
    let folder = Folder::new("vault-form");
    let sheet = Sheet::of(&stereo()).expect("a sheet");
    let good = stored(sheet.bytes(), sheet.left(), sheet.right());
    let total = good.len();
    let unlike = "isn't a stored voice, which begins with 8SVXDIFF\n";
    for length in 0..total {
        let words = match length {
            0..8 => unlike.to_string(),
            8..32 => format!("has {length} bytes, but a stored voice has at least 32\n"),
            _ => format!("has {length} bytes, but by the lengths in it should have {total}\n"),
        };
        is_not_restored(&folder, &good[..length], 2, &words);
    }
    let longer = [&good[..], &[0]].concat();
    is_not_restored(
        &folder,
        &longer,
        2,
        &format!("has {} bytes, but by the lengths", total + 1),
    );
    for place in 0..8 {
        let mut other = good.clone();
        other[place] ^= 0x20;
        is_not_restored(&folder, &other, 2, unlike);
    }
    // A voice isn't a stored one, nor the other way round.
    is_not_restored(&folder, &EXAMPLE, 2, unlike);
    let path = folder.file("stored", &good);
    run(&[&"vault", &path, &folder.path("out")]).fails(1, "stored: refused by 2: ");
    run(&[&"vault", &"--restore", &"/dev/zero", &folder.path("out")]).fails(2, unlike);
    assert_eq!(folder.names(), "old stored");
}

#[test]
fn lengths_that_do_not_add_up_are_told() {
    let folder = Folder::new("vault-lengths");
    let sheet = Sheet::of(&stereo()).expect("a sheet");
    // A header of 21 bytes and a CHAN of 2.
    let (most, n) = (u64::MAX, 23);
    let with = |lengths| {
        let parts = stored(sheet.bytes(), sheet.left(), sheet.right());
        [&with_lengths(lengths)[..], &parts[32..]].concat()
    };
    let more = "the lengths in it are together more than 64 bits can count\n";
    for lengths in [
        [most, most, most],
        [most, 0, 0],
        [0, most, 0],
        [0, 0, most],
        [most - 31, 0, 0],
        [n, 3, most - n - 34],
        // These come to the file's own length if what is past 64 bits is dropped.
        [n, most, 7],
        [1 << 63, 1 << 63, n + 6],
        [n, 3 + (1 << 63), 3 + (1 << 63)],
    ] {
        is_not_restored(&folder, &with(lengths), 2, more);
    }
    let words = |lengths: &str| format!("has {} bytes, but by the lengths in it should have {lengths}\n", n + 38);
    is_not_restored(
        &folder,
        &with([most - 32, 0, 0]),
        2,
        &words("18,446,744,073,709,551,615"),
    );
    is_not_restored(&folder, &with([0, 0, 0]), 2, &words("32"));
    is_not_restored(&folder, &with([n + 1, 3, 3]), 2, &words(&(n + 39).to_string()));
    is_not_restored(&folder, &with([n, 3, 2]), 2, &words(&(n + 37).to_string()));
    is_not_restored(&folder, &with([n, 3, 3 + (1 << 32)]), 2, &words("4,294,967,357"));
    // They add up, but aren't the parts' own: the library looks at these.
    for lengths in [[n, 4, 2], [n, 6, 0], [n, 0, 6]] {
        is_not_restored(&folder, &with(lengths), 1, "refused by 18: ");
    }
    is_not_restored(&folder, &with([0, n + 6, 0]), 1, "refused by 16: ");
    is_not_restored(&folder, &with([n - 1, 4, 3]), 1, "refused by 15: ");
}

#[test]
fn a_stored_voice_that_is_not_sound_is_refused() {
    let folder = Folder::new("vault-unsound");
    let sheet = |one_shot: u8, octaves: u8, compression: u8, rest: &[u8]| {
        let header = [
            1,
            0,
            0,
            0,
            one_shot,
            0,
            0,
            0,
            0,
            0,
            0,
            0,
            0,
            0x1F,
            0x40,
            octaves,
            compression,
            0,
            1,
            0,
            0,
        ];
        [&header[..], rest].concat()
    };
    // Good ones, of one channel and of two, with values that no file was stored in.
    for (rest, right) in [(&[][..], &[][..]), (&[2, 6], &[9, 9, 9])] {
        let path = folder.file("stored", &stored(&sheet(1, 2, 0, rest), &[5, 5, 5], right));
        let back = run(&[&"vault", &"--restore", &path, &"-"]).well().bytes;
        let voice = svx::parse_voice(&back).expect("a voice");
        assert_eq!(voice.channels[0].octaves, [vec![5], vec![5, 10]]);
        assert_eq!(voice.channels.len(), 1 + right.len() / 3);
    }
    for (number, sheet, left, right) in [
        (15, sheet(1, 1, 0, &[3, 0, 0]), &[1][..], &[][..]),
        (15, sheet(1, 1, 0, &[2]), &[1], &[]),
        (15, vec![1], &[1], &[]),
        (16, vec![], &[], &[]),
        (16, vec![2, 6], &[1], &[1]),
        (16, sheet(1, 1, 0, &[12]), &[1], &[]),
        (16, sheet(1, 1, 0, &[2, 5]), &[1], &[]),
        (16, sheet(1, 1, 0, &[10, 6]), &[1], &[]),
        (16, sheet(1, 1, 0, &sheet(1, 1, 0, &[])), &[1], &[]),
        (17, sheet(1, 1, 0, &[10, 1, 11, 0xFF]), &[1], &[]),
        (10, sheet(1, 1, 2, &[]), &[1], &[]),
        (13, sheet(2, 64, 0, &[]), &[1], &[]),
        (13, sheet(1, 255, 0, &[]), &[], &[]),
        (18, sheet(2, 1, 0, &[]), &[1], &[]),
        (18, sheet(1, 1, 0, &[]), &[1, 2], &[]),
        (18, sheet(1, 0, 0, &[]), &[], &[]),
        (18, sheet(1, 2, 0, &[]), &[1, 2], &[]),
        (18, sheet(1, 1, 0, &[]), &[1], &[1]),
        (18, sheet(1, 1, 0, &[2, 2]), &[1], &[1]),
        (18, sheet(1, 1, 0, &[2, 6]), &[1], &[]),
        (18, sheet(0, 1, 0, &[2, 6]), &[1, 2], &[1]),
    ] {
        let words = format!("refused by {number}: ");
        is_not_restored(&folder, &stored(&sheet, left, right), 1, &words);
        // Compressed or not.
        if sheet.len() > 16 && number != 10 {
            let packed = [&sheet[..16], &[1], &sheet[17..]].concat();
            is_not_restored(&folder, &stored(&packed, left, right), 1, &words);
        }
        fs::remove_file(folder.path("old")).expect("a file");
    }
}

#[test]
fn vault_writes_over_no_file() {
    let folder = Folder::new("vault-taken");
    let path = folder.voice("v", &looped());
    run(&[&"vault", &path, &folder.path("s")]).well();
    let (bytes, values) = (folder.read("v"), folder.read("s"));
    let store = folder.path("s");
    folder.old_files(&["out"]);
    symlink("out", folder.path("link")).expect("a link");
    symlink("missing", folder.path("nowhere")).expect("a link");
    fs::hard_link(&path, folder.path("hard-v")).expect("a second name");
    fs::hard_link(&store, folder.path("hard-s")).expect("a second name");
    let names = folder.names();
    // Storing and restoring alike, with these options before the files.
    for (file, itself, option) in [
        (&path, ["v", "hard-v"], "--anew"),
        (&store, ["s", "hard-s"], "--restore"),
    ] {
        let to = |name: &str, options: &[&str]| {
            let out = folder.path(name);
            let mut arguments: Vec<&dyn AsRef<OsStr>> = vec![&"vault", &option, file, &out];
            options.iter().for_each(|option| arguments.push(option));
            run(&arguments)
        };
        for name in ["out", "link", "nowhere"] {
            to(name, &[]).fails(2, &format!("{name}: is there already; --force writes over it"));
        }
        for name in itself {
            to(name, &[]).fails(2, &format!("{name}: is the file that is read; it isn't written over"));
            to(name, &["--force"]).fails(2, "isn't written over");
        }
        to("missing/out", &["--force"]).fails(2, "missing/out: no such file or directory");
        to("", &["--force"]).fails(2, "directory");
        to("/dev/null", &[]).fails(2, "is there already");
        to("/dev/null", &["--force"]).well();
        if Path::new("/dev/full").exists() {
            to("/dev/full", &["--force"]).fails(2, "/dev/full: no space left");
        }
        assert_eq!(folder.names(), names);
        folder.are_kept(&["out"]);
    }
    assert_eq!((folder.read("v"), folder.read("s")), (bytes.clone(), values.clone()));
    // By force, through a link, which stays; and the file keeps its permissions.
    fs::set_permissions(folder.path("out"), Permissions::from_mode(0o640)).expect("permissions");
    run(&[&"vault", &path, &folder.path("link"), &"--force"]).well();
    assert_eq!(folder.read("out"), values);
    run(&[&"vault", &"--restore", &store, &folder.path("link"), &"--force"]).well();
    assert_eq!(folder.read("out"), bytes);
    let about = fs::metadata(folder.path("out")).expect("a file");
    assert_eq!(about.permissions().mode() & 0o777, 0o640);
    assert!(folder.path("link").is_symlink());
    assert_eq!(folder.names(), names);
}

#[test]
fn what_cannot_be_stored_in_full_is_removed() {
    let folder = Folder::new("vault-half");
    let mut voice = looped();
    voice.header.one_shot_hi_samples = 3_000;
    voice.header.repeat_hi_samples = 0;
    voice.channels[0].octaves = vec![wave(3_000, 7), wave(6_000, 7)];
    let (path, store) = (folder.voice("v", &voice), folder.path("s"));
    run(&[&"vault", &path, &store]).well();
    folder.old_files(&["out"]);
    for (option, file) in [("--anew", &path), ("--restore", &store)] {
        run_in_little_room(&[&"vault", &option, file, &folder.path("new")]).fails(2, "new: file too large");
        run_in_little_room(&[&"vault", &option, file, &folder.path("out"), &"--force"]).fails(2, "out: file too large");
    }
    assert_eq!(folder.names(), "out s v");
    folder.are_kept(&["out"]);
}

/// The file of number 2,097, written out by hand: one channel of one octave, one sample, 88, that is played once, at
/// 46,922 samples a second.
const VOICE_2097: [u8; 50] = [
    0x46, 0x4F, 0x52, 0x4D, 0, 0, 0, 0x2A, 0x38, 0x53, 0x56, 0x58, 0x56, 0x48, 0x44, 0x52, 0, 0, 0, 0x14, 0, 0, 0, 1,
    0, 0, 0, 0, 0, 0, 0, 0, 0xB7, 0x4A, 1, 0, 0, 1, 0, 0, 0x42, 0x4F, 0x44, 0x59, 0, 0, 0, 1, 0x58, 0,
];

/// The file of a number, by the library.
fn file_of(number: u32) -> Vec<u8> {
    let sheet = Sheet::drawn(number).expect("a voice");
    sheet.write().expect("a file")
}

#[test]
fn make_writes_the_voice_of_a_number() {
    let folder = Folder::new("make");
    let out = folder.path("out.8svx");
    let ran = run(&[&"make", &"2097", &out]).well();
    let line = "50 bytes, 1 channel of 1 sample in 1 octave at 46,922 Hz";
    assert_eq!(ran.out, format!("{}: {line}\n", out.display()));
    assert_eq!(folder.read("out.8svx"), VOICE_2097);
    assert_eq!(run(&[&"make", &"2097", &"-"]).well().bytes, VOICE_2097);
    assert_eq!(run(&[&"make", &"0000002097", &"-"]).well().bytes, VOICE_2097);
    // Two channels of two octaves: 47, 22, 105 and -68, -95, -81, at 41,276 samples a second.
    let stereo = form(&[
        (
            b"VHDR",
            &[0, 0, 0, 1, 0, 0, 0, 0, 0, 0, 0, 0, 0xA1, 0x3C, 2, 0, 0, 1, 0, 0],
        ),
        (b"CHAN", &[0, 0, 0, 6]),
        (b"BODY", &[47, 22, 105, 188, 161, 175]),
    ]);
    let ran = run(&[&"make", &"50887", &out, &"--force"]).well();
    let line = ": 66 bytes, 2 channels of 3 samples in 2 octaves at 41,276 Hz\n";
    assert!(ran.out.ends_with(line), "{}", ran.out);
    assert_eq!(folder.read("out.8svx"), stereo);
    assert_eq!(run(&[&"make", &"--", &"50887", &"-"]).well().bytes, stereo);
    for number in [1, 37_153, 4_294_967_295] {
        assert_eq!(run(&[&"make", &number.to_string(), &"-"]).well().bytes, file_of(number));
    }
    assert_eq!(folder.names(), "out.8svx");
}

#[test]
fn make_tells_what_a_number_gives() {
    let out = run(&[&"make", &"--help"]).well().out;
    for words in [
        "NUMBER OUT.8svx",
        "FIRST..LAST DIR",
        "--force",
        "1 to 4294967295",
        "DIR/0000000001.8svx",
        "all of them whole",
        "left by 13",
        "right by 17",
        "left by 5",
        "32 bits",
        "lowest bit",
        "1 + the remainder by 4",
        "remainder by 64",
        "one-shot becomes 1",
        "8000 + the remainder by 40000",
        "lowest byte",
        "65536",
    ] {
        assert!(out.contains(words), "{words}");
    }
    assert!(out.lines().all(|line| line.len() < 80), "{out}");
}

#[test]
fn wrong_usage_of_make_is_2() {
    let folder = Folder::new("make-usage");
    let out = folder.path("out");
    run(&[&"make", &"5"]).fails(2, "usage: svx make (NUMBER OUT.8svx | FIRST..LAST DIR) [--force]");
    run(&[&"make", &"5", &out, &out]).fails(2, "usage: svx make (NUMBER");
    run(&[&"make", &"5", &out, &"--force=1"]).fails(2, "takes no value");
    run(&[&"make", &"5", &"-6"]).fails(2, "unknown option -6");
    run(&[&"make", &"1..5", &"-"]).fails(2, "a range is several files, and standard output is one");
    assert_eq!(folder.names(), "");
}

#[test]
fn what_is_no_number_is_told() {
    let folder = Folder::new("make-number");
    let out = folder.path("out");
    let range = "takes a whole number from 1 to 4,294,967,295, without commas, or two as FIRST..LAST; not ";
    let short = [
        "", "+5", "-5", " 5", "5 ", "5\n", "5.0", "0x5", "five", "1 000", "1,000", "\u{0661}", "..", "1..", "..5",
        "1-5", "1...5", "1..=5", "1 .. 5", "1..2..3", "+1..5", "1..+5", "-1..5", "1..-5",
    ];
    let long = ["4294967296", "18446744073709551616", "1..4294967296", "0..4294967296"];
    for text in short.iter().chain(&long) {
        run(&[&"make", text, &out]).fails(2, range);
    }
    run(&[&"make", &"--", &"-5", &out]).fails(2, &format!("{range}-5\n"));
    run(&[&"make", &"5\n", &out]).fails(2, &format!("{range}5\\n\n"));
    run(&[&"make", &OsStr::from_bytes(b"5\xFF"), &out]).fails(2, range);
    for text in ["2..1", "5..0", "4294967295..1"] {
        run(&[&"make", &text, &out]).fails(2, &format!("make: FIRST is above LAST in {text}\n"));
    }
    assert_eq!(folder.names(), "");
}

#[test]
fn the_number_0_is_refused() {
    let folder = Folder::new("make-0");
    let out = folder.path("out");
    let words = "svx: 0: refused by 48: the starting number is 0\n";
    for text in ["0", "00", "0..0", "0..5", "0..4294967295"] {
        run(&[&"make", &text, &out]).fails(1, words);
        // The refusal comes before a look at the names.
        run(&[&"make", &text, &folder.path("missing/out")]).fails(1, words);
    }
    run(&[&"make", &"0", &"-"]).fails(1, words);
    assert_eq!(folder.names(), "");
    folder.old_files(&["out"]);
    run(&[&"make", &"0", &out, &"--force"]).fails(1, words);
    run(&[&"make", &"0..5", &out, &"--force"]).fails(1, words);
    folder.are_kept(&["out"]);
}

#[test]
fn make_writes_a_range() {
    let folder = Folder::new("make-range");
    let dir = folder.path("dir");
    let ran = run(&[&"make", &"1..1000", &dir]).well();
    let files: Vec<Vec<u8>> = (1..=1_000).map(file_of).collect();
    let bytes: usize = files.iter().map(Vec::len).sum();
    assert_eq!(bytes, 671_340);
    let line = "1,000 voices, 1 to 1,000; 671,340 bytes";
    assert_eq!(ran.out, format!("{}: {line}\n", dir.display()));
    let within = Folder(dir.clone());
    let names: Vec<String> = (1..=1_000).map(|number| format!("{number:010}.8svx")).collect();
    assert_eq!(within.names(), names.join(" "));
    for (name, file) in names.iter().zip(&files) {
        assert!(within.read(name) == *file, "{name}");
    }
    // Each is read, and is the same file if it is made alone.
    let paths: Vec<PathBuf> = names.iter().map(|name| within.path(name)).collect();
    let mut arguments: Vec<&dyn AsRef<OsStr>> = vec![&"check"];
    paths.iter().for_each(|path| arguments.push(path));
    let ran = run(&arguments).well();
    assert!(ran.out.lines().count() == 1_000 && ran.out.lines().all(|line| line.ends_with(": ok")));
    for number in [1, 2, 500, 1_000] {
        let alone = run(&[&"make", &number.to_string(), &"-"]).well().bytes;
        assert!(alone == within.read(&format!("{number:010}.8svx")), "{number}");
    }
    // A further range joins them, in a folder that has other files as well.
    within.old_files(&["other"]);
    run(&[&"make", &"1001..1002", &dir]).well();
    assert_eq!(
        within.names(),
        format!("{} 0000001001.8svx 0000001002.8svx other", names.join(" "))
    );
    within.are_kept(&["other"]);
}

#[test]
fn a_range_may_be_one_number_or_the_last() {
    let folder = Folder::new("make-last");
    let dir = folder.path("dir");
    let ran = run(&[&"make", &"2097..2097", &dir]).well();
    assert_eq!(
        ran.out,
        format!("{}: 1 voice, 2,097 to 2,097; 50 bytes\n", dir.display())
    );
    assert_eq!(folder.read("dir/0000002097.8svx"), VOICE_2097);
    let ran = run(&[&"make", &"4294967293..4294967295", &dir.join("")]).well();
    assert!(ran.out.contains(": 3 voices, 4,294,967,293 to 4,294,967,295; "));
    for number in [4_294_967_293, 4_294_967_294, 4_294_967_295] {
        assert!(folder.read(&format!("dir/{number}.8svx")) == file_of(number));
    }
    assert_eq!(fs::read_dir(&dir).expect("a folder").count(), 4);
}

#[test]
fn make_writes_over_no_file() {
    let folder = Folder::new("make-taken");
    folder.old_files(&["out"]);
    symlink("out", folder.path("link")).expect("a link");
    symlink("missing", folder.path("nowhere")).expect("a link");
    let names = folder.names();
    let to = |name: &str| run(&[&"make", &"2097", &folder.path(name)]);
    let by_force = |name: &str| run(&[&"make", &"2097", &folder.path(name), &"--force"]);
    for name in ["out", "link", "nowhere"] {
        to(name).fails(2, &format!("{name}: is there already; --force writes over it"));
    }
    for ran in [to(""), by_force("")] {
        ran.fails(2, "is a directory");
    }
    by_force("missing/out").fails(2, "missing/out: no such file or directory");
    by_force("out/new").fails(2, "out/new: not a directory");
    to("/dev/null").fails(2, "is there already");
    by_force("/dev/null").well();
    if Path::new("/dev/full").exists() {
        by_force("/dev/full").fails(2, "/dev/full: no space left");
        let script = "\"$1\" make 2097 - >/dev/full";
        run_program("sh", &[&"-c", &script, &"sh", &TOOL]).fails(2, "standard output: no space left");
    }
    assert_eq!(folder.names(), names);
    folder.are_kept(&["out"]);
    // By force, through a link, which stays; and the file keeps its permissions.
    fs::set_permissions(folder.path("out"), Permissions::from_mode(0o640)).expect("permissions");
    by_force("link").well();
    assert_eq!(folder.read("out"), VOICE_2097);
    let about = fs::metadata(folder.path("out")).expect("a file");
    assert_eq!(about.permissions().mode() & 0o777, 0o640);
    assert!(folder.path("link").is_symlink());
    assert_eq!(folder.names(), names);
}

#[test]
fn a_range_writes_over_no_file() {
    let folder = Folder::new("make-range-taken");
    let taken = "is there already; --force writes over it";
    // Names that aren't a number's in ten digits are nobody's, and so are numbers beside the range.
    folder.old_files(&["1.8svx", "00000000003.8svx", "0000000003.8SVX", "0000000006.8svx"]);
    let others = folder.names();
    // Whichever is taken, none is written; of several the lowest is told.
    let files = ["0000000005.8svx", "0000000003.8svx", "0000000001.8svx"];
    for name in files {
        folder.old_files(&[name]);
        let names = folder.names();
        run(&[&"make", &"1..5", &folder.0]).fails(2, &format!("{name}: {taken}"));
        assert_eq!(folder.names(), names);
    }
    folder.are_kept(&files);
    let ran = run(&[&"make", &"1..5", &folder.0, &"--force"]).well();
    assert!(ran.out.contains(": 5 voices, 1 to 5; "), "{}", ran.out);
    for number in 1..=5 {
        let name = format!("{number:010}.8svx");
        assert!(folder.read(&name) == file_of(number), "{name}");
        fs::remove_file(folder.path(&name)).expect("a file");
    }
    assert_eq!(folder.names(), others);
    folder.are_kept(&others.split(' ').collect::<Vec<_>>());
}

#[test]
fn a_replaced_file_keeps_its_permissions() {
    let folder = Folder::new("make-mode");
    let path = folder.file("0000000002.8svx", b"old");
    fs::set_permissions(&path, Permissions::from_mode(0o600)).expect("permissions");
    run(&[&"make", &"1..3", &folder.0, &"--force"]).well();
    let mode = fs::metadata(&path).expect("a file").permissions().mode();
    assert_eq!((mode & 0o777, folder.read("0000000002.8svx")), (0o600, file_of(2)));
}

/// What can't be replaced, or would lead two numbers to one file, turns a range back even by force, before any is written.
#[test]
fn a_range_replaces_only_files() {
    let folder = Folder::new("make-others");
    folder.old_files(&["0000000003.8svx"]);
    let (link, not_file) = (
        folder.path("0000000002.8svx"),
        "0000000002.8svx: isn't an ordinary file",
    );
    for to in ["0000000003.8svx", "0000000004.8svx", "missing", "/dev/null"] {
        symlink(to, &link).expect("a link");
        run(&[&"make", &"1..5", &folder.0]).fails(2, not_file);
        run(&[&"make", &"1..5", &folder.0, &"--force"]).fails(2, not_file);
        assert!(fs::read_link(&link).is_ok_and(|at| at == Path::new(to)));
        fs::remove_file(&link).expect("the link");
    }
    if pipe(&link) {
        run(&[&"make", &"1..5", &folder.0, &"--force"]).fails(2, not_file);
        fs::remove_file(&link).expect("the pipe");
    }
    fs::create_dir(&link).expect("a folder");
    run(&[&"make", &"1..5", &folder.0, &"--force"]).fails(2, "0000000002.8svx: is a directory");
    assert_eq!(folder.names(), "0000000002.8svx 0000000003.8svx");
    folder.are_kept(&["0000000003.8svx"]);
    // Beside the range it is in nobody's way.
    run(&[&"make", &"3..5", &folder.0, &"--force"]).well();
}

#[test]
fn a_folder_that_cannot_be_made_is_told() {
    let folder = Folder::new("make-folder");
    folder.old_files(&["file"]);
    symlink("missing", folder.path("nowhere")).expect("a link");
    fs::create_dir(folder.path("dir")).expect("a folder");
    symlink("dir", folder.path("to-dir")).expect("a link");
    let names = folder.names();
    let make = |name: &str| run(&[&"make", &"1..3", &folder.path(name), &"--force"]);
    make("file").fails(2, "file: isn't a directory");
    make("nowhere").fails(2, "nowhere: isn't a directory");
    make("missing/dir").fails(2, "missing/dir: no such file or directory");
    make("file/dir").fails(2, "file/dir: not a directory");
    make("/dev/null").fails(2, "/dev/null: isn't a directory");
    run(&[&"make", &"1..3", &""]).fails(2, "no such file or directory");
    assert_eq!(folder.names(), names);
    folder.are_kept(&["file"]);
    // A link to a folder is a folder.
    make("to-dir").well();
    assert_eq!(fs::read_dir(folder.path("dir")).expect("a folder").count(), 3);
    assert!(folder.path("to-dir").is_symlink());
}

#[test]
fn a_range_that_cannot_be_finished_leaves_whole_files() {
    let folder = Folder::new("make-half");
    // The first two are shorter than a block, the third isn't.
    assert_eq!(
        [1, 2, 3].map(|number| file_of(number).len() > 512),
        [false, false, true]
    );
    let within = Folder(folder.path("dir"));
    let too_large = "0000000003.8svx: file too large";
    run_in_blocks(1, &[&"make", &"1..5", &within.0]).fails(2, too_large);
    assert_eq!(within.names(), "0000000001.8svx 0000000002.8svx");
    assert_eq!(
        (within.read("0000000001.8svx"), within.read("0000000002.8svx")),
        (file_of(1), file_of(2))
    );
    // A file that was to be replaced is as it was.
    within.old_files(&["0000000003.8svx"]);
    run_in_blocks(1, &[&"make", &"1..5", &within.0, &"--force"]).fails(2, too_large);
    assert_eq!(within.names(), "0000000001.8svx 0000000002.8svx 0000000003.8svx");
    within.are_kept(&["0000000003.8svx"]);
    // A folder that nothing came into isn't left.
    run_in_blocks(1, &[&"make", &"3..5", &folder.path("new")]).fails(2, too_large);
    run_in_blocks(1, &[&"make", &"3", &folder.path("new")]).fails(2, "new: file too large");
    assert_eq!(folder.names(), "dir");
}

#[test]
fn a_range_that_is_stopped_leaves_whole_files() {
    let folder = Folder::new("make-stopped");
    let mut command = Command::new(TOOL);
    command.args(["make", "1..20000"]).arg(folder.path("dir"));
    let mut tool = command.spawn().expect("the tool runs");
    let made = || fs::read_dir(folder.path("dir")).map_or(0, Iterator::count);
    (0..10_000)
        .take_while(|_| made() < 50)
        .for_each(|_| std::thread::sleep(Duration::from_millis(1)));
    tool.kill().expect("it is stopped");
    let status = tool.wait().expect("it has ended");
    assert!(!status.success() && made() >= 50);
    let within = Folder(folder.path("dir"));
    let names = within.names();
    let (hidden, files): (Vec<&str>, Vec<&str>) = names.split(' ').partition(|name| name.starts_with(".svx-"));
    assert!(hidden.len() <= 1, "{hidden:?}");
    for (number, name) in (1..).zip(files) {
        assert_eq!(name, format!("{number:010}.8svx"));
        assert!(within.read(name) == file_of(number), "{name}");
    }
}

/// Whether every element of an XML text is closed in its place.
fn well_formed(text: &str) -> bool {
    let mut open: Vec<&str> = Vec::new();
    for part in text.split('<').skip(1) {
        let Some((tag, words)) = part.split_once('>') else {
            return false;
        };
        let name = tag.split_whitespace().next().unwrap_or("");
        match name.strip_prefix('/') {
            Some(closed) if open.pop() != Some(closed) => return false,
            None if !tag.ends_with('/') => open.push(name),
            _ => {}
        }
        let entities = ["amp;", "lt;", "gt;", "quot;", "#39;"];
        if words
            .split('&')
            .skip(1)
            .any(|after| !entities.iter().any(|entity| after.starts_with(entity)))
        {
            return false;
        }
    }
    open.is_empty() && !text.chars().any(|c| c.is_control() && c != '\n')
}

/// Draws a voice and gives the picture.
fn drawn(folder: &Folder, voice: &Voice) -> String {
    let out = folder.path("out.svg");
    run(&[&"draw", &folder.voice("voice.8svx", voice), &out]).well();
    let svg = fs::read_to_string(&out).expect("a picture");
    assert!(svg.starts_with("<svg ") && well_formed(&svg), "{svg}");
    svg
}

/// How many ends of loops are marked.
fn marks(svg: &str) -> usize {
    svg.matches(r##"fill="#2f5d9b"/>"##).count()
}

#[test]
fn draw_makes_a_picture() {
    let folder = Folder::new("draw");
    let svg = drawn(&folder, &looped());
    assert_eq!(svg.matches("<path ").count(), 2);
    assert_eq!(
        svg.matches(">Tom &amp; &lt;Jerry&gt;<").count(),
        2,
        "the title, for eyes and for readers"
    );
    for words in [
        "Octave 0",
        "Octave 1",
        "one-shot 4",
        "loop 8",
        "-128",
        "127",
        "key-up",
        "100%",
    ] {
        assert!(svg.contains(&format!(">{words}<")), "{words}");
    }
    let svg = drawn(&folder, &stereo());
    assert!(svg.matches("<path ").count() == 2 && svg.contains(">left<"), "{svg}");
    assert!(marks(&svg) == 0 && !svg.contains("crossing"), "no loop, no ends: {svg}");
    assert!(svg.contains(">voice.8svx<"), "without a name, the file's");
}

#[test]
fn draw_marks_the_ends_of_loops() {
    let folder = Folder::new("loop-ends");
    let mut voice = looped();
    let quiet = vec![7; 24];
    voice.channels = vec![ChannelSamples {
        octaves: vec![vec![5, 5, -5, 5, 5, 5, 5, 5, -5, -5, -5, -5], quiet.clone()],
    }];
    let svg = drawn(&folder, &voice);
    assert_eq!(marks(&svg), 4, "two ends in each of two octaves");
    let words = [
        "loop start 4: nearest crossing 1 earlier; loop end 12: nearest crossing 4 earlier",
        "loop start 8: no crossing; loop end 24: no crossing",
    ];
    for words in words {
        assert!(svg.contains(&format!(">{words}<")), "{words}: {svg}");
    }
    // Each channel has crossings of its own.
    voice.channel = Some(ChannelAssignment::Stereo);
    voice.channels.push(ChannelSamples {
        octaves: vec![vec![-1, -1, -1, -1, 1, 1, 1, 1, 1, 1, 1, 1], quiet],
    });
    let svg = drawn(&folder, &voice);
    assert_eq!(marks(&svg), 8);
    let words = "loop start 4: on a crossing; loop end 12: nearest crossing 8 earlier";
    assert!(svg.contains(&format!(">{words}<")), "{svg}");
    voice.channels[1].octaves[0] = vec![1, 1, 1, 1, 1, 1, -1, -1, -1, -1, -1, -1];
    assert!(drawn(&folder, &voice).contains("loop start 4: nearest crossing 2 later; loop end"));
    // What a sequence plays isn't looped.
    assert_eq!(marks(&drawn(&folder, &unplayable())), 0);
}

/// The labels of the peaks, and where the marks are, in the order of the picture.
fn peaks(svg: &str) -> (Vec<&str>, Vec<(&str, &str)>) {
    fn between<'a>(text: &'a str, from: &str, to: &str) -> Option<&'a str> {
        text.split_once(from)?.1.split_once(to).map(|(found, _)| found)
    }
    let labels = svg.lines().filter_map(|line| between(line, ">peak ", "<"));
    let place = |line| Some((between(line, "cx=\"", "\"")?, between(line, "cy=\"", "\"")?));
    let marks = svg
        .lines()
        .filter(|line| line.starts_with("<circle ") && line.contains("#c92a2a"));
    (labels.collect(), marks.filter_map(place).collect())
}

#[test]
fn draw_marks_the_first_peak_of_each_octave() {
    let folder = Folder::new("peaks");
    let mut voice = looped();
    let octave = |n: usize, loud: &[(usize, i8)]| {
        let mut samples = vec![3; n];
        loud.iter().for_each(|(place, value)| samples[*place] = *value);
        samples
    };
    // Of samples as loud as each other the first has the mark, whichever way they go.
    voice.channels = vec![ChannelSamples {
        octaves: vec![
            octave(12, &[(2, -40), (5, 40), (11, -40)]),
            octave(24, &[(0, 127), (20, -128), (23, -128)]),
        ],
    }];
    let svg = drawn(&folder, &voice);
    let (labels, places) = peaks(&svg);
    assert_eq!(labels, ["-40", "-128"], "once in each octave");
    // Samples lie from 84 on and are 880 wide together; the mark is in the middle of its own. -128 is at the area's foot.
    assert_eq!(places, [("267.3", "204.6"), ("835.7", "450")]);
    // Two channels have a peak each, at an end of the picture too, and silence has its first sample.
    voice.channel = Some(ChannelAssignment::Stereo);
    voice.channels.push(ChannelSamples {
        octaves: vec![octave(12, &[(11, 127)]), vec![0; 24]],
    });
    let svg = drawn(&folder, &voice);
    let (labels, places) = peaks(&svg);
    assert_eq!(labels, ["-40", "127", "-128", "0"]);
    let across: Vec<&str> = places.iter().map(|(x, _)| *x).collect();
    assert_eq!(across, ["267.3", "927.3", "835.7", "102.3"]);
    // Without samples there is none.
    voice = looped();
    voice.header = VoiceHeader::default();
    voice.channels = vec![ChannelSamples { octaves: vec![vec![]] }];
    let svg = drawn(&folder, &voice);
    assert!(
        peaks(&svg).0.is_empty() && peaks(&svg).1.is_empty() && svg.contains("no samples"),
        "{svg}"
    );
}

#[test]
fn a_picture_of_many_samples_stays_small() {
    let folder = Folder::new("large-picture");
    let mut voice = looped();
    voice.header = VoiceHeader {
        one_shot_hi_samples: 100_000,
        ct_octave: 1,
        ..VoiceHeader::default()
    };
    voice.channels = vec![ChannelSamples {
        octaves: vec![wave(100_000, 3)],
    }];
    voice.metadata = vec![("title".into(), "\u{202e}\u{7}\u{fffe} \u{3042}".repeat(40))];
    let svg = drawn(&folder, &voice);
    assert!(svg.len() < 40_000, "columns and not samples: {}", svg.len());
    assert!(svg.contains("…<") && svg.contains(">100,000 samples<"), "{svg}");
}

#[test]
fn a_drawn_level_is_held_between_silence_and_full() {
    let folder = Folder::new("level");
    let mut voice = looped();
    voice.attack = vec![points(&[(0, 99_999), (10, -99_999), (10, 99_999), (0, 65_536)])];
    let svg = drawn(&folder, &voice);
    let line = svg
        .split("<polyline points=\"")
        .nth(1)
        .and_then(|rest| rest.split('"').next())
        .expect("a line");
    let place = |pair: &str| {
        pair.split_once(',')
            .map(|(x, y)| (x.parse().expect("x"), y.parse().expect("y")))
    };
    let places: Vec<(f64, f64)> = line.split(' ').filter_map(place).collect();
    // From 99,999 to -99,999 in 10 ms: full until 1.72 ms, silent from 5 ms on; and so back. All ends at 50 ms.
    let corners = [
        (0.0, 0.0),
        (0.0, 1.0),
        (0.0, 1.0),
        (1.72, 1.0),
        (5.0, 0.0),
        (10.0, 0.0),
        (15.0, 0.0),
        (18.28, 1.0),
    ];
    let corners = [&corners[..], &[(20.0, 1.0), (20.0, 1.0), (50.0, 0.0)]].concat();
    let (start, end) = (places[0], places[places.len() - 1]);
    assert_eq!(places.len(), corners.len(), "{line}");
    for ((x, y), (ms, level)) in places.iter().zip(corners) {
        let (expected_x, expected_y) = (start.0 + (end.0 - start.0) * ms / 50.0, start.1 - 120.0 * level);
        assert!((x - expected_x).abs() < 0.2 && (y - expected_y).abs() < 0.2, "{line}");
    }
}

#[test]
fn the_input_is_not_written_over() {
    let folder = Folder::new("over");
    let path = folder.voice("looped.8svx", &looped());
    let (bytes, link, hard) = (
        fs::read(&path).expect("a file"),
        folder.path("link"),
        folder.path("hard"),
    );
    symlink(&path, &link).expect("a link");
    fs::hard_link(&path, &hard).expect("a second name");
    for command in ["stem", "wave", "raw", "rewrite", "vault", "draw"] {
        for out in [
            &path,
            &link,
            &hard,
            &folder
                .path("../")
                .join(folder.0.file_name().expect("a name"))
                .join("hard"),
        ] {
            run(&[&command, &path, out]).fails(2, "isn't written over");
            run(&[&"wave", &path, out, &"--force"]).fails(2, "isn't written over");
            run(&[&"vault", &path, out, &"--force"]).fails(2, "isn't written over");
        }
        run(&[&command, &link, &path]).fails(2, "isn't written over");
        assert_eq!(fs::read(&path).expect("a file"), bytes);
    }
}

#[test]
fn output_that_cannot_be_written_is_2() {
    let folder = Folder::new("output");
    let path = folder.file("example.8svx", &EXAMPLE);
    for command in ["stem", "wave", "raw", "rewrite", "vault", "draw"] {
        run(&[&command, &path, &folder.path("missing/out")]).fails(2, "no such file or directory");
        run(&[&command, &path, &folder.0]).fails(2, "is a directory");
        if Path::new("/dev/full").exists() && !["wave", "vault"].contains(&command) {
            run(&[&command, &path, &"/dev/full"]).fails(2, "/dev/full: no space left");
        }
    }
}

#[test]
fn a_file_that_cannot_be_finished_is_removed() {
    let folder = Folder::new("half");
    let (path, out) = (folder.voice("looped.8svx", &looped()), folder.path("out.wav"));
    let words = format!("svx: {}: file too large\n", out.display());
    run_in_little_room(&[&"stem", &path, &out]).fails(2, &words);
    assert!(!out.exists());
}

#[test]
fn a_reader_that_goes_away_is_no_failure() {
    let folder = Folder::new("pipe");
    let path = folder.voice("looped.8svx", &looped());
    let script = "\"$@\" | head -c 100 | wc -c; \"$1\" info \"$3\" | true; \"$1\" wave \"$3\" - | true; \
                  \"$1\" vault \"$3\" - | true; \"$1\" make 5 - | true";
    let mut command = Command::new("sh");
    command
        .args(["-c", script, "sh", env!("CARGO_BIN_EXE_svx"), "stem"])
        .args([path.as_os_str(), OsStr::new("-")]);
    let ran = command.output().expect("a shell");
    assert_eq!(
        (String::from_utf8_lossy(&ran.stdout).trim(), ran.stderr.len()),
        ("100", 0)
    );
}

/// The voices of a folder in the repository, if it is there.
fn repository(folder: &str) -> Vec<PathBuf> {
    let folder = Path::new(env!("CARGO_MANIFEST_DIR")).join("../../voices").join(folder);
    let entries = fs::read_dir(folder).map(|entries| entries.flatten().map(|entry| entry.path()).collect());
    let mut voices: Vec<PathBuf> = entries.unwrap_or_default();
    voices.retain(|path| path.extension().is_some_and(|e| e == "8svx"));
    voices.sort();
    voices
}

/// The number in front of a file's name.
fn number(path: &Path) -> u32 {
    let name = path.file_name().expect("a name").to_string_lossy().into_owned();
    let digits: String = name.chars().take_while(char::is_ascii_digit).collect();
    digits.parse().expect("a number in front of the name")
}

#[test]
fn every_voice_of_the_repository_is_told_and_played() {
    let folder = Folder::new("voices");
    for path in repository("") {
        let voice = svx::parse_voice(&fs::read(&path).expect("a file")).expect("a voice");
        assert_eq!(run(&[&"check", &path]).well().out, format!("{}: ok\n", path.display()));
        assert!(run(&[&"info", &path]).well().out.ends_with("can be played\n"));
        let out = run(&[&"null", &path, &"--rate=8000"]).well().out;
        assert_eq!(out.matches(": 0 frames differ").count(), 4);
        let note = Note::start(
            0,
            (u64::from(voice.header.samples_per_sec) * 65_536 / 44_100) as u32,
            44_100,
            127,
        );
        let expected = filled(&voice, note, 20_000, Some(15_000));
        assert_eq!(
            stem(&folder, &path, &["--frames=20000", "--key-up=15000"]),
            (44_100, expected)
        );
    }
}

#[test]
fn the_chord_of_the_repository_is_mixed() {
    let folder = Folder::new("chord");
    let Some(pad) = repository("").into_iter().find(|path| path.ends_with("pad.8svx")) else {
        return;
    };
    let voice = svx::parse_voice(&fs::read(&pad).expect("a file")).expect("a voice");
    let out = folder.path("out.wav");
    run(&[&"mix", &pad, &pad.with_file_name("chord.score"), &out]).well();
    let entries = [
        entry(0, 176_400, 1, 12_441, 110),
        entry(17_640, 167_580, 1, 18_641, 100),
        entry(35_280, 158_760, 0, 15_675, 90),
        entry(52_920, 149_940, 0, 24_883, 80),
    ];
    // Four seconds and the release, 900 ms.
    let (rate, values) = wav(&folder.read("out.wav"));
    assert_eq!((rate, values.len()), (44_100, 2 * 216_090));
    assert!(values == mixed(&voice, &entries, 44_100, 216_090));
    // It isn't so loud that it would have to be held.
    assert!(values.iter().all(|v| v.unsigned_abs() < 32_000));
}

#[test]
fn every_octave_of_the_repository_is_written() {
    let folder = Folder::new("octaves");
    for path in repository("") {
        let voice = svx::parse_voice(&fs::read(&path).expect("a file")).expect("a voice");
        let name = path.file_stem().expect("a name").to_string_lossy().into_owned();
        let ran = run(&[&"wave", &path, &folder.path(&format!("{name}.wav")), &"--all"]).well();
        assert_eq!(ran.out.lines().count(), voice.octave_count());
        for k in 0..voice.octave_count() {
            let file = folder.read(&format!("{name}-{k}.wav"));
            assert_eq!(octave_wav(&file), octave(&voice, k), "{name}");
        }
        if name == "pad" {
            let lengths = ["2,048 frames at 8,363 Hz, 244.9 ms", "4,096 frames", "8,192 frames"];
            assert!(lengths
                .iter()
                .zip(ran.out.lines())
                .all(|(words, line)| line.contains(words)));
        }
    }
}

#[test]
fn every_voice_of_the_repository_is_written_and_drawn() {
    let folder = Folder::new("written");
    let out = folder.path("out");
    for path in repository("") {
        let voice = svx::parse_voice(&fs::read(&path).expect("a file")).expect("a voice");
        let sides: usize = voice.channels.iter().map(ChannelSamples::total_len).sum();
        assert_eq!(run(&[&"raw", &path, &"-"]).well().bytes.len(), sides);
        run(&[&"rewrite", &path, &out]).well();
        assert_eq!(
            svx::parse_voice(&fs::read(&out).expect("a file")),
            Ok(voice.clone()),
            "{}",
            path.display()
        );
        let svg = drawn(&folder, &voice);
        assert_eq!(
            svg.matches("<path ").count(),
            voice.octave_count() * voice.channel_count()
        );
    }
}

#[test]
fn every_damaged_voice_is_refused_by_its_number() {
    let folder = Folder::new("unplayable");
    for path in repository("damaged") {
        let ran = run(&[&"check", &path]);
        let line = format!("{}: refused by {}: ", path.display(), number(&path));
        assert!(
            ran.status == Some(1) && ran.err.is_empty() && ran.out.starts_with(&line),
            "{}",
            ran.out
        );
        assert_eq!(ran.out.lines().count(), 1);
        run(&[&"info", &path]).fails(1, &line);
        run(&[&"wave", &path, &folder.path("out.wav"), &"--all"]).fails(1, &line);
        run(&[&"vault", &path, &folder.path("out")]).fails(1, &line);
        run(&[&"vault", &path, &folder.path("out"), &"--anew"]).fails(1, &line);
    }
    assert_eq!(folder.names(), "");
    for path in repository("unplayable") {
        run(&[&"check", &path]).well();
        run(&[&"stem", &path, &folder.path("out.wav")]).fails(1, &format!("refused by {}: ", number(&path)));
        assert!(!folder.path("out.wav").exists());
        // An octave is no note: what turns a note back is no hindrance.
        run(&[&"wave", &path, &folder.path("octave.wav"), &"--force"]).well();
    }
}
