//! A committee made by the writers, with packing 2 and one bad dealer, runs to
//! stage 5, and its signatures are what document 01 says they are.

use second::arith::{Element, Scalar};
use second::generator::draft::Draft;
use second::params::{Params, Party};
use second::rng::Rng;
use second::run::{Run, Stage};

/// The committee, up to the challenges.
fn committee() -> Draft {
    let mut rng = Rng::new(7);
    let params = Params::new(9, 2, 2).expect("within the bounds");
    let mut draft = Draft::new(params, &mut rng).with_bad_dealers(1, &mut rng);
    draft.go_to(Stage::Responding, &mut rng);
    draft
}

/// The run after these holders have responded.
fn answered(draft: &Draft, holders: &[Party]) -> Run {
    let mut run = draft.run.clone();
    for &holder in holders {
        let record = draft.committee.re(&run, holder);
        assert_eq!(run.give(&record), Ok(()));
    }
    run
}

/// Every list of so many members, each list rising.
fn quorums(members: &[Party], size: usize) -> Vec<Vec<Party>> {
    let Some((&first, rest)) = members.split_first() else {
        return if size == 0 { vec![Vec::new()] } else { Vec::new() };
    };
    let mut lists = quorums(rest, size);
    if size > 0 {
        lists.extend(quorums(rest, size - 1).into_iter().map(|list| [vec![first], list].concat()));
    }
    lists
}

#[test]
fn one_bad_dealer_is_left_out() {
    let draft = committee();
    let sets = draft.run.sets.as_ref().expect("the sets are fixed");
    assert_eq!(sets.bad.len(), 1);
    assert_eq!(sets.qual.len(), draft.params().majority() - 1);
    assert!(sets.bad.iter().all(|dealer| draft.wrong.iter().any(|pair| pair.0 == *dealer)));
}

#[test]
fn every_signature_verifies() {
    let draft = committee();
    let run = answered(&draft, &draft.responders);
    assert_eq!(run.stage, Stage::Done);
    let public_key = run.setup.as_ref().expect("a setup").public_key;
    let nonces = run.nonces().concat();
    let (challenges, signatures) = (run.challenges.concat(), run.signatures.concat());
    let count = draft.params().a * draft.committee.combinations();
    assert_eq!(signatures.len(), count as usize);
    for (place, signature) in signatures.into_iter().enumerate() {
        let right = nonces[place] * public_key.power(challenges[place]);
        assert_eq!(Element::of(signature), right);
    }
}

/// φ(u,k) is the sum over QUAL of i^(u-1) × H_i(1-k), plus e(u,k) × s.
#[test]
fn every_signature_comes_from_the_secrets() {
    let draft = committee();
    let run = answered(&draft, &draft.responders);
    let (a, secret) = (draft.params().a as usize, draft.committee.secret);
    let qual = &run.sets.as_ref().expect("the sets are fixed").qual;
    for u in 0..draft.committee.combinations() as usize {
        for k in 1..=a {
            let mut sum = run.challenges[u][k - 1] * secret;
            for &dealer in qual {
                let at_slot = draft.committee.dealings[dealer as usize - 1][a - k];
                sum = sum + Scalar::of(i64::from(dealer)).power(u as u32) * at_slot;
            }
            assert_eq!(run.signatures[u][k - 1], sum);
        }
    }
}

#[test]
fn any_quorum_gives_the_same_signatures() {
    let draft = committee();
    let expected = answered(&draft, &draft.responders).signatures;
    let lists = quorums(&draft.holders, draft.params().quorum());
    assert_eq!(lists.len(), 21);
    for mut list in lists {
        assert_eq!(answered(&draft, &list).signatures, expected);
        list.reverse();
        assert_eq!(answered(&draft, &list).signatures, expected);
    }
}
