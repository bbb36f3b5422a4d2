//! The logs that document 01 gives: the worked one and its cases B, C, D, E, L.
//! Besides, the worked one with a shift, and begun by SX with a dealing more.

/// A record from its letters, its one-byte fields and its numbers.
pub fn record(letters: &str, fields: &[u8], numbers: &[u32]) -> Vec<u8> {
    let mut bytes = [letters.as_bytes(), fields].concat();
    bytes.extend(numbers.iter().flat_map(|number| number.to_be_bytes()));
    bytes
}

fn setup() -> Vec<u8> {
    record("SU", &[4, 1, 1, 0], &[4, 16])
}

/// The three dealings, with the shares for 2 of dealers 2 and 3 as sent.
fn dealings(second: u32, third: u32) -> Vec<Vec<u8>> {
    vec![
        record("DE", &[1, 0], &[1, 4, 1, 2, 3, 4]),
        record("DE", &[2, 0], &[4, 4, 1, second, 1, 1]),
        record("DE", &[3, 0], &[16, 64, 3, third, 5, 6]),
    ]
}

/// The three complaint rows, with holder 2's mask.
fn complaints(mask: u32) -> Vec<Vec<u8>> {
    vec![record("VE", &[2, 0], &[mask]), record("VE", &[3, 0], &[0]), record("VE", &[4, 0], &[0])]
}

pub fn challenges() -> Vec<u8> {
    record("CH", &[0, 0], &[1, 2])
}

/// CS with the same challenges.
pub fn shifted_challenges(shift: u32) -> Vec<u8> {
    record("CS", &[0, 0], &[shift, 1, 2])
}

pub fn response(holder: u8, numbers: [u32; 2]) -> Vec<u8> {
    record("RE", &[holder, 0], &numbers)
}

/// The log up to the dealings, with the shares for 2 of dealers 2 and 3 as sent.
pub fn up_to_dealings(second: u32, third: u32) -> Vec<u8> {
    [vec![setup()], dealings(second, third)].concat().concat()
}

/// The worked log up to the complaint rows.
pub fn up_to_complaints() -> Vec<u8> {
    [up_to_dealings(1, 4), complaints(0).concat()].concat()
}

/// The worked log up to CH.
pub fn up_to_challenges() -> Vec<u8> {
    [up_to_complaints(), challenges()].concat()
}

fn responses() -> Vec<u8> {
    [response(2, [10, 22]), response(3, [13, 28])].concat()
}

/// A: the worked log.
pub fn worked() -> Vec<u8> {
    [up_to_challenges(), responses()].concat()
}

/// The worked log with CS in place of CH.
pub fn shifted(shift: u32) -> Vec<u8> {
    [up_to_complaints(), shifted_challenges(shift), responses()].concat()
}

/// B: a response from 1, who is not in HOLD.
pub fn outsider() -> Vec<u8> {
    [up_to_challenges(), response(1, [0, 0])].concat()
}

/// C: a response number that does not pass.
pub fn failing() -> Vec<u8> {
    [up_to_challenges(), response(2, [11, 22])].concat()
}

/// D: dealer 3 wrongs holder 2 and is blamed.
pub fn one_bad() -> Vec<u8> {
    let start = [up_to_dealings(1, 5), complaints(4).concat(), challenges()].concat();
    [start, response(2, [6, 10]), response(3, [8, 13])].concat()
}

/// E: holder 2 blames dealer 3 without cause.
pub fn false_blame() -> Vec<u8> {
    [up_to_dealings(1, 4), record("VE", &[2, 0], &[4])].concat()
}

/// L: dealers 2 and 3 wrong holder 2 and are blamed, one more than t.
pub fn too_many_bad() -> Vec<u8> {
    [up_to_dealings(2, 5), complaints(6).concat()].concat()
}

/// The worked log begun by SX with a dealing of 4, H = 1 + 2x, up to the dealings.
pub fn waiting_for_four() -> Vec<u8> {
    let setup = record("SX", &[4, 1, 1, 0], &[4, 16]);
    let fourth = record("DE", &[4, 0], &[4, 64, 3, 5, 7, 9]);
    [setup, dealings(1, 4).concat(), fourth].concat()
}

/// The same up to challenges 1, 2, 3.
pub fn four_challenged() -> Vec<u8> {
    let challenges = record("CH", &[0, 0], &[1, 2, 3]);
    [waiting_for_four(), b"GO".to_vec(), complaints(0).concat(), challenges].concat()
}

/// The same with its two responses.
pub fn four_done() -> Vec<u8> {
    let rows = [(2, [15, 42, 131]), (3, [20, 56, 176])];
    let rows = rows.map(|(holder, numbers)| record("RE", &[holder, 0], &numbers));
    [four_challenged(), rows.concat()].concat()
}

/// F and G: an SU of these parameters whose keys are all 4.
pub fn plain_setup(n: u8, t: u8, a: u8) -> Vec<u8> {
    record("SU", &[n, t, a, 0], &vec![4; usize::from(t) + 1])
}
