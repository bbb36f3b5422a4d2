//! Streams of masks whose members are counted (request 2.4): sets of every size and
//! shape with every number of parties, lots, and streams that are cut or too long.

use crate::masks::{entry, ENTRY_LENGTH, LONGEST_STREAM};
use crate::params::{Party, MOST_NARROW, MOST_PARTIES};
use crate::rng::Rng;

/// As many parties as a mask has bits.
const WHOLE: u8 = MOST_PARTIES as u8;

/// The mask with every bit.
const ALL: u64 = u64::MAX;

/// Other numbers of parties, next to the ends and the middle of a mask.
const EDGES: [u8; 8] = [0, 1, 31, 32, 33, 63, 65, 255];

/// How often, of a hundred, a bit is set in a mask drawn by lot.
const DENSITIES: [u32; 7] = [2, 10, 25, 50, 75, 90, 98];

/// How many streams are drawn by lot, and how many entries each of them has.
const LOTS: usize = 7;
const LOT_LENGTH: usize = 1_000;

/// The streams that a seed gives, as bytes. The first is the same for every seed.
pub fn mask_streams(seed: u64) -> Vec<Vec<u8>> {
    let mut rng = Rng::new(seed);
    let mut streams =
        vec![example(), every_n(&mut rng), every_size(&mut rng), every_two_neighbours()];
    streams.extend((0..LOTS).map(|_| lots(LOT_LENGTH, &mut rng)));
    streams.extend(cut_streams(&mut rng));
    streams.extend(full_streams(&mut rng));
    streams
}

/// The bytes of these entries, each a number of parties and a mask.
fn stream_of(entries: impl IntoIterator<Item = (u8, u64)>) -> Vec<u8> {
    entries.into_iter().flat_map(|(n, mask)| entry(n, mask)).collect()
}

/// The mask with these parties; those that no mask has are left out.
fn mask_of(parties: impl IntoIterator<Item = Party>) -> u64 {
    let possible = parties.into_iter().filter(|party| (1..=MOST_PARTIES).contains(party));
    possible.fold(0, |mask, party| mask | 1 << (party - 1))
}

/// No bit and every bit, each bit alone, each bit absent, bits that take turns; then
/// some of these with other numbers of parties.
fn example() -> Vec<u8> {
    let alone = (1..=MOST_PARTIES).map(|party| mask_of([party]));
    let absent = alone.clone().map(|mask| !mask);
    let alternating = (0..6).flat_map(|power| turns(1 << power));
    let masks = [0, ALL].into_iter().chain(alone).chain(absent).chain(alternating);
    stream_of(masks.map(|mask| (WHOLE, mask)).chain(at_edges()))
}

/// The masks whose bits take turns, so many set and as many not: those that begin
/// with set ones at bit 0, and the others.
fn turns(run: Party) -> [u64; 2] {
    let places = (0..MOST_PARTIES).step_by(2 * run as usize);
    let mask = places.fold(0, |mask, place| mask | mask_of(1..=run) << place);
    [mask, !mask]
}

/// Every bit, each half and every other bit, with numbers of parties at the edges.
fn at_edges() -> impl Iterator<Item = (u8, u64)> {
    let [low_half, high_half] = turns(MOST_NARROW);
    let masks = [ALL, low_half, high_half, turns(1)[0]];
    masks.into_iter().flat_map(|mask| EDGES.map(|n| (n, mask)))
}

/// With every n: the parties up to n, those above, the two beside that edge, every
/// bit, and two lots.
fn every_n(rng: &mut Rng) -> Vec<u8> {
    let with_n = |n: u8| {
        let (last, next) = (Party::from(n), Party::from(n) + 1);
        let up_to = mask_of(1..=last);
        let beside = [mask_of([last]), mask_of([next]), mask_of([last, next])];
        let others = [up_to, !up_to, ALL, lot(50, rng), lot(50, rng)];
        beside.into_iter().chain(others).map(move |mask| (n, mask))
    };
    stream_of((0..=u8::MAX).flat_map(with_n))
}

/// Of every size: the lowest parties, the highest, and two lots, with 64 parties and
/// with another number.
fn every_size(rng: &mut Rng) -> Vec<u8> {
    let parties: Vec<Party> = (1..=MOST_PARTIES).collect();
    let of_size = |size: usize| {
        let sets = [
            parties[..size].to_vec(),
            parties[parties.len() - size..].to_vec(),
            rng.some_of(&parties, size),
            rng.some_of(&parties, size),
        ];
        let n = number_by_lot(rng);
        sets.into_iter().map(mask_of).flat_map(move |mask| [(WHOLE, mask), (n, mask)])
    };
    stream_of((0..=parties.len()).flat_map(of_size))
}

/// Every two parties next to each other, with all parties and with the numbers that
/// leave out both, the second, and none.
fn every_two_neighbours() -> Vec<u8> {
    let with_first = |first: u8| {
        let mask = mask_of([first.into(), Party::from(first) + 1]);
        [WHOLE, first - 1, first, first + 1].map(|n| (n, mask))
    };
    stream_of((1..WHOLE).flat_map(with_first))
}

/// So many entries by lot.
fn lots(count: usize, rng: &mut Rng) -> Vec<u8> {
    let by_lot = |_| {
        let percent = rng.pick(&DENSITIES);
        (number_by_lot(rng), lot(percent, rng))
    };
    stream_of((0..count).map(by_lot))
}

/// A mask in which so many bits of a hundred are set.
fn lot(percent: u32, rng: &mut Rng) -> u64 {
    mask_of((1..=MOST_PARTIES).filter(|_| rng.chance(percent)))
}

/// A number of parties, more often one that a mask has room for.
fn number_by_lot(rng: &mut Rng) -> u8 {
    let most = rng.pick(&[MOST_PARTIES, u32::from(u8::MAX)]);
    rng.between(0, most) as u8
}

/// An empty stream, one with nothing but a cut entry, and streams whose last entry
/// is cut after each of its bytes.
fn cut_streams(rng: &mut Rng) -> Vec<Vec<u8>> {
    let whole = lots(20, rng);
    let mut streams = vec![Vec::new(), whole[..ENTRY_LENGTH - 1].to_vec()];
    streams.extend((1..ENTRY_LENGTH).map(|cut| whole[..whole.len() - cut].to_vec()));
    streams
}

/// Senseless bytes: as many whole entries as there may be, as many bytes as there
/// may be, and one byte more.
fn full_streams(rng: &mut Rng) -> Vec<Vec<u8>> {
    let bytes = rng.bytes(LONGEST_STREAM + 1);
    let whole = LONGEST_STREAM - LONGEST_STREAM % ENTRY_LENGTH;
    [whole, LONGEST_STREAM, bytes.len()].map(|length| bytes[..length].to_vec()).to_vec()
}
