//! A log in the making: a committee, the run that its records are given to,
//! and the bytes so far. Every record is written with the answer it must get,
//! and a different answer stops the generator.
//!
//! Drafts from before requests 2.2 and 2.3 keep their bytes. Where a request
//! changed the answer to a setup, the draft goes on by the earlier answer, and the
//! log is read by the later one.

use super::bytes::put;
use super::committee::{let_in_later, random_params, random_scalar, Committee};
use crate::arith::{Scalar, Q};
use crate::params::{Params, Party, MOST_NARROW, MOST_PARTIES};
use crate::records::Tag;
use crate::refusal::Refusal;
use crate::rng::Rng;
use crate::run::{Run, Stage};
use std::collections::BTreeSet;

/// The tags of document 01.
pub const FIRST_TAGS: [Tag; 5] = [Tag::Su, Tag::De, Tag::Ve, Tag::Ch, Tag::Re];

/// Those, and CS of request 2.1.
pub const SHIFT_TAGS: [Tag; 6] = [Tag::Su, Tag::De, Tag::Ve, Tag::Ch, Tag::Cs, Tag::Re];

#[derive(Clone)]
pub struct Draft {
    pub committee: Committee,
    pub run: Run,
    pub bytes: Vec<u8>,
    /// The senders at stages 1, 2 and 4, in order.
    pub dealers: Vec<Party>,
    pub holders: Vec<Party>,
    pub responders: Vec<Party>,
    /// The dealer and the holder of each share sent wrongly.
    pub wrong: BTreeSet<(Party, Party)>,
    /// Holders who leave their complaints out.
    pub silent: BTreeSet<Party>,
    /// How often, of a hundred, a refused record comes before an accepted one.
    pub noise: u32,
    /// The tags of its records, refused ones among them.
    pub tags: &'static [Tag],
    /// The bound on n that its refused setups go by: document 01's or request 2.2's.
    pub most_parties: u32,
    /// Are keys that are the identity among its refused setups (request 2.3)?
    pub identity_keys: bool,
    /// The shift that the challenges are given with; CH gives them where there is none.
    pub shift: Option<Scalar>,
    /// Is it begun by SX, so that GO follows its last dealing (request 2.5)?
    pub waits: bool,
}

impl Draft {
    /// A committee with its senders drawn by lot; all shares are right.
    pub fn new(params: Params, rng: &mut Rng) -> Draft {
        let parties: Vec<Party> = (1..=params.n).collect();
        let holders = rng.some_of(&parties, params.majority());
        Draft {
            committee: Committee::random(params, rng),
            run: Run::fresh(),
            bytes: Vec::new(),
            dealers: scattered_dealers(&params, rng),
            responders: rng.some_of(&holders, params.quorum()),
            holders,
            wrong: BTreeSet::new(),
            silent: BTreeSet::new(),
            noise: 0,
            tags: &FIRST_TAGS,
            most_parties: if params.n <= MOST_NARROW { MOST_NARROW } else { MOST_PARTIES },
            identity_keys: false,
            shift: None,
            waits: false,
        }
    }

    pub fn random(rng: &mut Rng) -> Draft {
        let params = random_params(None, rng);
        Draft::new(params, rng)
    }

    pub fn params(&self) -> Params {
        self.committee.params
    }

    /// So many of the dealers are bad.
    pub fn with_bad_dealers(self, count: usize, rng: &mut Rng) -> Draft {
        let bad = rng.some_of(&self.dealers, count);
        self.with_bad(&bad, rng)
    }

    /// These dealers send a wrong share to some of the holders heard.
    pub fn with_bad(mut self, bad: &[Party], rng: &mut Rng) -> Draft {
        for &dealer in bad {
            let wronged = rng.between(1, 3) as usize;
            let holders = rng.some_of(&self.holders, wronged);
            self.wrong.extend(holders.into_iter().map(|holder| (dealer, holder)));
        }
        self
    }

    pub fn with_noise(mut self, percent: u32) -> Draft {
        self.noise = percent;
        self
    }

    /// All holders leave their complaints out.
    pub fn with_silence(mut self) -> Draft {
        self.silent = self.holders.iter().copied().collect();
        self
    }

    /// CS is among the refused records too.
    pub fn with_every_tag(mut self) -> Draft {
        self.tags = &SHIFT_TAGS;
        self
    }

    /// CS, SX and GO are among the refused records too.
    pub fn with_waiting_tags(mut self) -> Draft {
        self.tags = &Tag::ALL;
        self
    }

    /// SX begins it, and after the n-t dealers so many of the others deal, drawn by
    /// lot.
    pub fn with_extra_dealers(mut self, count: usize, rng: &mut Rng) -> Draft {
        let others: Vec<Party> =
            (1..=self.params().n).filter(|party| !self.dealers.contains(party)).collect();
        self.dealers.extend(rng.some_of(&others, count));
        self.committee.heard = self.dealers.len();
        self.waits = true;
        self.with_waiting_tags()
    }

    /// Refused setups go by request 2.2, and CS is among the refused records.
    pub fn with_wide_bounds(mut self) -> Draft {
        self.most_parties = MOST_PARTIES;
        self.with_every_tag()
    }

    /// Keys that are the identity are among its refused setups. Its own key is
    /// another: where lots drew s = 0, one more is drawn.
    pub fn with_identity_keys(mut self, rng: &mut Rng) -> Draft {
        self.identity_keys = true;
        if self.committee.has_identity_key() {
            self.committee.secret = Scalar::of(i64::from(rng.between(1, Q - 1)));
        }
        self
    }

    /// CS gives the challenges with this shift, and is among the refused records.
    pub fn with_shift(mut self, shift: Scalar) -> Draft {
        self.shift = Some(shift);
        self.with_every_tag()
    }

    /// The draft's tags that the stage of the run takes.
    pub fn taken_tags(&self) -> Vec<Tag> {
        let taken = self.run.takes();
        self.tags.iter().copied().filter(|tag| taken.contains(tag)).collect()
    }

    /// The draft's tags that it does not take, and that do not end the reading.
    pub fn alien_tags(&self) -> Vec<Tag> {
        let taken = self.run.takes();
        let passed_over = |tag: &Tag| !taken.contains(tag) && self.run.length(*tag).is_some();
        self.tags.iter().copied().filter(passed_over).collect()
    }

    /// The tag of the next good record, but for CS in place of CH.
    fn next_tag(&self) -> Tag {
        match self.run.takes() {
            [Tag::Su, Tag::Sx] if self.waits => Tag::Sx,
            [Tag::De, Tag::Go] if self.run.dealings.len() == self.dealers.len() => Tag::Go,
            [tag, ..] => *tag,
            [] => panic!("no record is taken at the end"),
        }
    }

    /// The next good record for the stage of the run.
    pub fn next_record(&self, rng: &mut Rng) -> Vec<u8> {
        match (self.next_tag(), self.shift) {
            (Tag::Ch, Some(shift)) => self.committee.cs(shift, rng),
            (tag, _) => self.good_record(tag, rng),
        }
    }

    /// The dealer whose turn it is, or the last one where all have dealt.
    fn next_dealer(&self) -> Party {
        let last = self.dealers.len() - 1;
        self.dealers[self.run.dealings.len().min(last)]
    }

    /// A good record of a tag that the stage of the run takes; a DE is good while
    /// there is a dealer left.
    pub fn good_record(&self, tag: Tag, rng: &mut Rng) -> Vec<u8> {
        match tag {
            Tag::Su => self.committee.su(),
            Tag::Sx => self.committee.sx(),
            Tag::De => self.dealing(self.next_dealer(), rng),
            Tag::Go => Tag::Go.letters().to_vec(),
            Tag::Ve => self.complaint(self.holders[self.run.complaints.len()]),
            Tag::Ch => self.committee.ch(rng),
            Tag::Cs => self.committee.cs(random_scalar(rng), rng),
            Tag::Re => self.committee.re(&self.run, self.responders[self.run.responses.len()]),
        }
    }

    fn dealing(&self, dealer: Party, rng: &mut Rng) -> Vec<u8> {
        let mut record = self.committee.de(dealer);
        for &(_, holder) in self.wrong.iter().filter(|pair| pair.0 == dealer) {
            let off = Scalar::of(i64::from(rng.between(1, 1000)));
            let sent = self.committee.share(dealer, holder) + off;
            let place = 4 + 4 * (self.params().quorum() + holder as usize - 1);
            put(&mut record, place, sent.number());
        }
        record
    }

    fn complaint(&self, holder: Party) -> Vec<u8> {
        let mut record = self.committee.ve(&self.run, holder);
        if self.silent.contains(&holder) {
            record[4..].fill(0);
        }
        record
    }

    /// Adds a record that the run takes. Where document 01 took the draft's setup
    /// and request 2.3 refuses it, the draft goes on by document 01.
    pub fn accept(&mut self, record: &[u8]) {
        if self.was_taken(record) {
            assert_eq!(self.run.give(record), Err(Refusal::IdentityKey));
            self.run.setup = Some(self.committee.setup());
            self.run.stage = Stage::Dealing;
        } else {
            assert_eq!(self.run.give(record), Ok(()));
        }
        self.bytes.extend(record);
    }

    /// Is the record the draft's setup, and one that document 01 alone takes?
    fn was_taken(&self, record: &[u8]) -> bool {
        self.committee.has_identity_key() && Tag::of(record) == Some(Tag::Su)
    }

    /// Adds a whole record that the run refuses so. Where document 01 refused a
    /// setup that request 2.2 lets in, the draft goes on by document 01.
    pub fn refuse(&mut self, record: &[u8], refusal: Refusal) {
        if !self.was_outside(record, refusal) {
            assert_eq!(self.run.give(record), Err(refusal));
        }
        self.bytes.extend(record);
    }

    /// Is the record a setup that document 01 alone refuses so?
    fn was_outside(&self, record: &[u8], refusal: Refusal) -> bool {
        let by_document = refusal == Refusal::Bounds && self.most_parties == MOST_NARROW;
        by_document && let_in_later((record[2], record[3], record[4]))
    }

    pub fn at_end(&self) -> bool {
        self.run.takes().is_empty()
    }

    /// How many bits the mask of VE has in this committee.
    pub fn mask_bits(&self) -> u32 {
        8 * self.params().mask_length() as u32
    }

    /// The length of a record of this tag in this committee.
    pub fn length(&self, tag: Tag) -> usize {
        self.committee.length(tag)
    }
}

/// n-t dealers in random order who are not just 1 to n-t.
fn scattered_dealers(params: &Params, rng: &mut Rng) -> Vec<Party> {
    let parties: Vec<Party> = (1..=params.n).collect();
    loop {
        let dealers = rng.some_of(&parties, params.majority());
        if dealers.iter().any(|&dealer| dealer as usize > params.majority()) {
            return dealers;
        }
    }
}
