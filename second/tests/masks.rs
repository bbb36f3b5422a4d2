//! Counting members (request 2.4): the stream of masks, its answers, and what the
//! generated streams show.

use second::generator::mask_streams::mask_streams;
use second::mask_coverage::{self, MaskCoverage};
use second::masks::{answer_stream, entry, ENTRY_LENGTH, LONGEST_STREAM};
use std::fs;
use std::io::Write;
use std::path::PathBuf;
use std::process::{Command, Stdio};
use std::sync::OnceLock;

/// The streams of seed 1, made once.
fn streams() -> &'static [Vec<u8>] {
    static STREAMS: OnceLock<Vec<Vec<u8>>> = OnceLock::new();
    STREAMS.get_or_init(|| mask_streams(1))
}

/// Asserts what is answered to an entry: bits, size and sum.
fn assert_counted(n: u8, mask: u64, (bits, size, sum): (u32, u32, u32)) {
    let line = format!("count {bits} {size} {sum}\n");
    assert_eq!(answer_stream(&entry(n, mask)), line, "{mask:#x} with {n}");
}

/// Parties 1, 2 and 4.
#[test]
fn three_members_are_counted() {
    for (n, size, sum) in [
        (0, 0, 0),
        (1, 1, 1),
        (2, 2, 1 + 2),
        (3, 2, 1 + 2 + 2),
        (4, 3, 1 + 2 + 2 + 3),
        (64, 3, 1 + 2 + 2 + 61 * 3),
        (255, 3, 1 + 2 + 2 + 252 * 3),
    ] {
        assert_counted(n, 0b1011, (3, size, sum));
    }
}

#[test]
fn none_and_all_are_counted() {
    for n in [0, 1, 32, 64, 65, 255] {
        assert_counted(n, 0, (0, 0, 0));
    }
    for (n, size, sum) in [
        (0, 0, 0),
        (1, 1, 1),
        (2, 2, 3),
        (32, 32, 528),
        (63, 63, 2_016),
        (64, 64, 2_080),
        (65, 64, 2_080 + 64),
        (255, 64, 2_080 + 191 * 64),
    ] {
        assert_counted(n, u64::MAX, (64, size, sum));
    }
}

/// Party 1, 32, 33 and 64, each alone, with the numbers about it.
#[test]
fn a_single_member_is_counted() {
    for (n, size, sum) in [(0, 0, 0), (1, 1, 1), (64, 1, 64), (255, 1, 255)] {
        assert_counted(n, 1, (1, size, sum));
    }
    for (n, size, sum) in [(31, 0, 0), (32, 1, 1), (33, 1, 2), (64, 1, 33)] {
        assert_counted(n, 1 << 31, (1, size, sum));
    }
    for (n, size, sum) in [(32, 0, 0), (33, 1, 1), (64, 1, 32), (255, 1, 223)] {
        assert_counted(n, 1 << 32, (1, size, sum));
    }
    for (n, size, sum) in [(1, 0, 0), (63, 0, 0), (64, 1, 1), (65, 1, 2), (255, 1, 192)] {
        assert_counted(n, 1 << 63, (1, size, sum));
    }
}

/// The odd parties, the even ones, and each half.
#[test]
fn half_of_all_are_counted() {
    let odd = 0x5555_5555_5555_5555;
    for (n, size, sum) in [(1, 1, 1), (2, 1, 2), (3, 2, 4), (32, 16, 272), (64, 32, 1_056)] {
        assert_counted(n, odd, (32, size, sum));
    }
    for (n, size, sum) in [(1, 0, 0), (2, 1, 1), (3, 1, 2), (32, 16, 256), (64, 32, 1_024)] {
        assert_counted(n, !odd, (32, size, sum));
    }
    for (n, size, sum) in [(31, 31, 496), (32, 32, 528), (33, 32, 560), (64, 32, 1_552)] {
        assert_counted(n, 0xFFFF_FFFF, (32, size, sum));
    }
    for (n, size, sum) in [(31, 0, 0), (32, 0, 0), (33, 1, 1), (64, 32, 528)] {
        assert_counted(n, 0xFFFF_FFFF_0000_0000, (32, size, sum));
    }
}

#[test]
fn the_high_byte_comes_first() {
    assert_eq!(answer_stream(&[1, 0, 0, 0, 0, 0, 0, 0, 1]), "count 1 1 1\n");
    assert_eq!(answer_stream(&[1, 1, 0, 0, 0, 0, 0, 0, 0]), "count 1 0 0\n");
    assert_eq!(answer_stream(&[57, 1, 0, 0, 0, 0, 0, 0, 0]), "count 1 1 1\n");
    assert_eq!(entry(57, 1 << 56), [57, 1, 0, 0, 0, 0, 0, 0, 0]);
}

#[test]
fn a_cut_entry_is_broken() {
    let whole = entry(2, 3);
    assert_eq!(answer_stream(&[&whole[..], &whole].concat()), "count 2 2 3\n".repeat(2));
    for length in 1..ENTRY_LENGTH {
        assert_eq!(answer_stream(&whole[..length]), "broken\n");
        let stream = [&whole, &whole[..length]].concat();
        assert_eq!(answer_stream(&stream), "count 2 2 3\nbroken\n");
    }
    assert_eq!(answer_stream(b""), "");
}

#[test]
fn the_longest_stream_is_read() {
    let zeros = "count 0 0 0\n".repeat(7_281);
    assert_eq!(answer_stream(&vec![0; 65_529]), zeros);
    assert_eq!(answer_stream(&vec![0; 65_536]), format!("{zeros}broken\n"));
    assert_eq!(answer_stream(&vec![0; 65_537]), "long\n");
}

/// The n and the mask of a whole entry.
fn parts(bytes: &[u8]) -> Option<(u8, u64)> {
    let (n, mask) = bytes.split_first()?;
    Some((*n, u64::from_be_bytes(mask.try_into().ok()?)))
}

/// How many of the first so many bits are set.
fn set_up_to(mask: u64, count: u8) -> u32 {
    let above = u64::MAX.checked_shl(count.into()).unwrap_or(0);
    (mask & !above).count_ones()
}

/// Every entry of every generated stream is answered as the numbers are defined.
#[test]
fn the_answers_follow_the_definition() {
    for stream in streams().iter().filter(|stream| stream.len() <= LONGEST_STREAM) {
        let answers = answer_stream(stream);
        let mut lines = answers.lines();
        for bytes in stream.chunks(ENTRY_LENGTH) {
            let defined = parts(bytes).map_or("broken".to_string(), |(n, mask)| {
                let sum: u32 = (1..=n).map(|k| set_up_to(mask, k)).sum();
                format!("count {} {} {sum}", mask.count_ones(), set_up_to(mask, n))
            });
            assert_eq!(lines.next(), Some(&defined[..]), "{bytes:?}");
        }
        assert_eq!(lines.next(), None);
    }
}

#[test]
fn generated_streams_are_of_every_length() {
    let has = |length: usize| streams().iter().any(|stream| stream.len() == length);
    assert!([0, 8, 65_529, 65_536, 65_537].into_iter().all(has));
    let left: Vec<usize> = streams().iter().map(|stream| stream.len() % ENTRY_LENGTH).collect();
    assert!((1..ENTRY_LENGTH).all(|cut| left.contains(&cut)));
    let example = streams()[0].len() / ENTRY_LENGTH;
    assert!((150..=220).contains(&example) && left[0] == 0);
    let answers: Vec<String> = streams().iter().map(|stream| answer_stream(stream)).collect();
    assert_eq!(answers.iter().filter(|answer| *answer == "long\n").count(), 1);
}

#[test]
fn the_same_seed_gives_the_same_streams() {
    assert_eq!(mask_streams(1), streams());
    let others = mask_streams(2);
    assert_eq!(others[0], streams()[0]);
    assert_ne!(others[1..], streams()[1..]);
}

/// What is missing in these streams without the entries left out.
fn missing_in(streams: &[Vec<u8>], left_out: impl Fn(u8, u64) -> bool) -> Vec<String> {
    let mut coverage = MaskCoverage::default();
    let is_kept = |bytes: &&[u8]| !parts(bytes).is_some_and(|(n, mask)| left_out(n, mask));
    for stream in streams {
        if stream.len() > LONGEST_STREAM {
            coverage.add(stream);
        } else {
            let kept: Vec<&[u8]> = stream.chunks(ENTRY_LENGTH).filter(is_kept).collect();
            coverage.add(&kept.concat());
        }
    }
    coverage.missing()
}

/// What is missing in the generated streams without the entries left out.
fn missing_without(left_out: impl Fn(u8, u64) -> bool) -> Vec<String> {
    missing_in(streams(), left_out)
}

#[test]
fn generated_streams_show_everything() {
    for seed in [1, 2, 3] {
        assert_eq!(missing_in(&mask_streams(seed), |_, _| false), Vec::<String>::new());
    }
    assert_eq!(missing_in(&[], |_, _| false), mask_coverage::wanted());
}

#[test]
fn each_bit_is_asked_for() {
    for bit in [0, 1, 7, 8, 31, 32, 33, 62, 63] {
        let alone = missing_without(|n, mask| n == 64 && mask == 1 << bit);
        assert_eq!(alone, [format!("bit {bit} alone with n = 64")]);
        let absent = missing_without(|_, mask| mask == !(1 << bit));
        assert_eq!(absent, [format!("every bit but bit {bit}")]);
    }
}

#[test]
fn each_size_is_asked_for() {
    for bits in [0, 2, 17, 32, 61, 64] {
        let missing = missing_without(|_, mask| mask.count_ones() == bits);
        assert!(missing.contains(&format!("a mask with {bits} bits set")), "{missing:?}");
        let besides_turns = missing.iter().filter(|what| !what.starts_with("turns")).count();
        assert_eq!(besides_turns, 1, "{missing:?}");
    }
}

#[test]
fn each_number_of_parties_is_asked_for() {
    for n in [65, 200, 255] {
        let missing = missing_without(|other, _| other == n);
        assert_eq!(missing, [format!("a mask with n = {n}")]);
    }
    for n in [0, 1, 32, 63] {
        let above = format!("members above n = {n}");
        let none = missing_without(|other, _| other == n);
        assert_eq!(none, [format!("a mask with n = {n}"), above.clone()]);
        assert_eq!(missing_without(|other, mask| other == n && mask >> n != 0), [above]);
    }
}

#[test]
fn bits_that_take_turns_are_asked_for() {
    for (run, from_bit_0) in [
        (1, 0x5555_5555_5555_5555),
        (2, 0x3333_3333_3333_3333),
        (4, 0x0F0F_0F0F_0F0F_0F0F),
        (8, 0x00FF_00FF_00FF_00FF),
        (16, 0x0000_FFFF_0000_FFFF),
        (32, 0x0000_0000_FFFF_FFFF),
    ] {
        for (turns, first) in [(from_bit_0, "set"), (!from_bit_0, "not set")] {
            let missing = missing_without(|_, mask| mask == turns);
            assert_eq!(missing, [format!("turns of {run} bits, the lowest {first}")]);
        }
    }
}

/// The first four streams show all but that there are many masks, and streams that
/// are empty, cut and too long.
#[test]
fn every_kind_of_stream_is_asked_for() {
    let mut coverage = MaskCoverage::default();
    for stream in &streams()[..4] {
        coverage.add(stream);
    }
    let kinds = [
        "5000 different masks",
        "an empty stream of masks",
        "a mask that breaks off",
        "a stream of masks that is too long",
    ];
    assert_eq!(coverage.missing(), kinds);
    for stream in &streams()[4..] {
        coverage.add(stream);
        if coverage.sets.len() >= 5_000 {
            break;
        }
    }
    assert_eq!(coverage.missing(), kinds[1..]);
    coverage.add(b"");
    assert_eq!(coverage.missing(), kinds[2..]);
    coverage.add(b"\n");
    assert_eq!(coverage.missing(), kinds[3..]);
    coverage.add(&vec![0; LONGEST_STREAM]);
    assert_eq!(coverage.missing(), kinds[3..]);
    coverage.add(&vec![0; LONGEST_STREAM + 1]);
    assert_eq!(coverage.missing(), Vec::<String>::new());
}

/// What the program prints, given these words and this input, and whether it ends well.
fn program(words: &[&str], input: &[u8]) -> (String, bool) {
    let mut command = Command::new(env!("CARGO_BIN_EXE_second"));
    let piped = command.args(words).stdin(Stdio::piped()).stdout(Stdio::piped());
    let mut child = piped.spawn().expect("the program starts");
    child.stdin.take().expect("an input").write_all(input).expect("the input is read");
    let output = child.wait_with_output().expect("the program ends");
    (String::from_utf8(output.stdout).expect("a text"), output.status.success())
}

/// An empty directory.
fn directory(name: &str) -> PathBuf {
    let path = PathBuf::from(env!("CARGO_TARGET_TMPDIR")).join(name);
    let _ = fs::remove_dir_all(&path);
    fs::create_dir_all(&path).expect("a directory");
    path
}

#[test]
fn the_program_writes_streams_and_counts() {
    let directory = directory("masks");
    let name = directory.to_str().expect("a name");
    let said = format!("{} streams\n", streams().len());
    assert_eq!(program(&["masks", name], b""), (said.clone(), true));
    for (number, stream) in (1..).zip(streams()) {
        let read = fs::read(directory.join(format!("{number:03}.masks"))).expect("a stream");
        assert!(read == *stream, "{number}");
        assert_eq!(program(&["count"], stream), (answer_stream(stream), true), "{number}");
    }
    assert_eq!(program(&["masks", name, "--seed", "2"], b""), (said, true));
    assert!(fs::read(directory.join("002.masks")).expect("a stream") != streams()[1]);
}

/// Without logs, and without masks, the check names what is missing and fails.
#[test]
fn the_program_checks_the_masks() {
    let directory = directory("checked-masks");
    let name = directory.to_str().expect("a name");
    let named = |page: &str| {
        let missing: Vec<&str> =
            page.lines().filter_map(|line| line.strip_prefix("missing ")).collect();
        mask_coverage::wanted().iter().filter(|what| missing.contains(&&what[..])).count()
    };
    let (page, well) = program(&["check-coverage", name], b"");
    assert_eq!((named(&page), well), (mask_coverage::wanted().len(), false));
    program(&["masks", name], b"");
    let (page, well) = program(&["check-coverage", name], b"");
    assert_eq!((named(&page), well), (0, false));
    assert!(page.contains("\nmissing refusal 1\n"));
}
