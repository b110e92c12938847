//! Compares the library with the original Rust module, input by input.
//!
//!     compare parse N [SEED]     files: refusal or sheet and samples; Fibonacci channels whose sums wrap by a plain rule (plain_fibonacci.rs)
//!     compare encode N [SEED]    voices: refusal or file; Fibonacci channels that meet a wrap or a tie by the same rule
//!     compare parts N [SEED]     codecs (the same, and quiet sound, most of it against the original), octaves, loops, levels, floats
//!     compare note N [SEED]      notes: fills and key-ups against a plain note, written from the specification (plain_note.rs)
//!     compare note-long N [SEED] the same in blocks of fewer than 20,000 frames
//!     compare mix N [SEED]       scores mixed against a plain mixer over the plain note (plain_mix.rs)
//!     compare wave N [SEED]      octaves as WAVE files against a plain version (plain_wave.rs), and taken apart again
//!     compare crossing N [SEED]  the nearest crossing against a plain version (plain_crossing.rs)
//!     compare peak N [SEED]      the first peak against a plain version (plain_peak.rs)
//!     compare vault N [SEED]     difference order and the way back against a plain version (plain_vault.rs), and there and back again
//!     compare drawn N [SEED]     voices drawn from numbers, and their files, against a plain version (plain_drawn.rs) and the original's files
//!     compare list FOLDER        the fixed list that the gate replays, written to a folder (see list.rs)
//!     compare bench              speed against the original and, for notes, mixes, WAVE files, crossings, peaks, difference order and drawing, against the plain versions
//!     compare fibonacci-bench    both Fibonacci codecs alone, by kind of sound
//!     compare note-bench         the notes alone
//!     compare mix-bench          the mixes alone
//!     compare wave-bench         the WAVE files alone
//!     compare crossing-bench     the crossings alone
//!     compare peak-bench         the peaks alone
//!     compare vault-bench        difference order and the way back alone
//!     compare load-bench         the load alone: a thousand voices drawn, written, read and played (load_bench.rs)
//!     compare raw FILE OUT       a file's samples as the library reads them, interleaved (for sox.sh)
//!     compare rewrite FILE OUT   a file read and written again by the library (for sox.sh)
//!     compare wave-file FILE OUT K  octave K of a file as a WAVE file (for wave.sh)
mod abi;
mod bench;
#[path = "../../host/svx/src/c.rs"]
mod c;
mod crossing;
mod crossing_bench;
mod drawn;
mod encode;
mod fibonacci_bench;
mod files;
mod list;
mod load_bench;
mod make;
mod mix;
mod mix_bench;
mod note;
mod note_bench;
mod parse;
mod parts;
mod peak;
mod peak_bench;
mod plain_crossing;
mod plain_drawn;
mod plain_fibonacci;
mod plain_mix;
mod plain_note;
mod plain_peak;
mod plain_vault;
mod plain_wave;
mod rust_side;
mod vault;
mod vault_bench;
mod wave;
mod wave_bench;
mod wave_large;

fn main() {
    let args: Vec<String> = std::env::args().skip(1).collect();
    let number = |i: usize, or: u64| args.get(i).map_or(or, |a| a.replace('_', "").parse().expect("a number"));
    match args.first().map(|s| s.as_str()) {
        Some("parse") => parse::run(number(1, 1_000_000), number(2, 1)),
        Some("encode") => encode::run(number(1, 1_000_000), number(2, 1)),
        Some("parts") => parts::run(number(1, 1_000_000), number(2, 1)),
        Some("note") => note::run(number(1, 1_000_000), number(2, 1), 60),
        Some("note-long") => note::run(number(1, 10_000), number(2, 1), 20_000),
        Some("mix") => mix::run(number(1, 1_000_000), number(2, 1)),
        Some("wave") => wave::run(number(1, 1_000_000), number(2, 1)),
        Some("crossing") => crossing::run(number(1, 1_000_000), number(2, 1)),
        Some("peak") => peak::run(number(1, 1_000_000), number(2, 1)),
        Some("vault") => vault::run(number(1, 1_000_000), number(2, 1)),
        Some("drawn") => drawn::run(number(1, 1_000_000), number(2, 1)),
        Some("list") => list::run(args.get(1).expect("a folder to write to")),
        Some("bench") => { bench::run(); fibonacci_bench::run(); note_bench::run(); mix_bench::run(); wave_bench::run(); crossing_bench::run(); peak_bench::run(); vault_bench::run(); load_bench::run(); }
        Some("fibonacci-bench") => fibonacci_bench::run(),
        Some("note-bench") => note_bench::run(),
        Some("mix-bench") => mix_bench::run(),
        Some("wave-bench") => wave_bench::run(),
        Some("crossing-bench") => crossing_bench::run(),
        Some("peak-bench") => peak_bench::run(),
        Some("vault-bench") => vault_bench::run(),
        Some("load-bench") => load_bench::run(),
        Some("raw") => files::raw(&args[1], &args[2]),
        Some("rewrite") => files::rewrite(&args[1], &args[2]),
        Some("wave-file") => files::wave(&args[1], &args[2], number(3, 0).try_into().expect("an octave")),
        _ => {
            eprintln!("usage: compare parse|encode|parts|note|note-long|mix|wave|crossing|peak|vault|drawn N [SEED] | list FOLDER | bench | fibonacci-bench | note-bench | mix-bench | wave-bench | crossing-bench | peak-bench | vault-bench | load-bench | raw|rewrite FILE OUT | wave-file FILE OUT K");
            std::process::exit(2);
        }
    }
}
