//! Keys that terms permit, read once: what the rows don't ask.

use crate::hex;
use cose::{
    Block, Error, NotAdmitted, Options, Reason, Refusal, Requirement, Requirements, Terms,
    TermsTable, Verdict, Wanted,
};

/// A symmetric key of the bytes `Jefe` that names HMAC 256/256.
pub(crate) const KEY: &[u8] = b"\xa3\x01\x04\x03\x05\x20\x44Jefe";

/// A token of the claims `{4: 2}` under it, whose tag is what Python's `hmac` computes of the `MAC_structure`.
pub(crate) const EXPIRING: &str =
    "d18443a10105a043a104025820cf9773e8020b7023f0385be16ff2e8fb3e15f1400e940159defdcfceda2462fe";

/// [`HI`](crate::HI) without its tag.
fn untagged() -> Vec<u8> {
    hex(&crate::HI[2..])
}

pub(crate) fn terms(keys: &[u8]) -> Terms<'_> {
    Terms {
        keys,
        ..Terms::default()
    }
}

#[test]
fn as_many_keys_as_it_holds() {
    // the keys that aren't permitted take no place: those of another algorithm, and of none
    let (others, unnamed) = ("a301040306204161", "a20104204161");
    let both = others.repeat(64) + &unnamed.repeat(64);
    let keys = [hex(&format!("9881{both}")).as_slice(), KEY].concat();
    let mut block = Block::new();
    let stated = Terms {
        algorithms: Some(&[5]),
        ..terms(&keys)
    };
    let table = TermsTable::read(&mut block, &stated).expect("one key is permitted");
    assert_eq!(table.usable(), 1);
    assert!(table.authenticate(&hex(crate::HI)).is_ok());

    let full = |count: usize| {
        hex(&format!(
            "98{count:02x}{}",
            "a301040305204161".repeat(count)
        ))
    };
    let usable =
        |keys: &[u8]| TermsTable::read(&mut Block::new(), &terms(keys)).map(|table| table.usable());
    let refusal = Refusal {
        reason: Reason::BadKeySet,
        place: 0,
    };
    assert_eq!(usable(&full(64)), Ok(64));
    assert_eq!(usable(&full(65)), Err(Error::Keys(refusal)));
}

#[test]
fn the_terms_are_kept() {
    let (message, mut block) = (untagged(), Block::new());
    let options = Options {
        aad: b"",
        wanted: Wanted::Mac0,
    };
    let stated = Terms {
        options,
        payload_limit: Some(2),
        ..terms(KEY)
    };
    let table = TermsTable::read(&mut block, &stated).expect("the keys are good");
    let Ok(Verdict::Authentic(found)) = table.authenticate(&message) else {
        panic!("refused")
    };
    assert_eq!((found.alg, found.payload), (5, b"hi".as_slice()));
    let options = Options {
        aad: b"data",
        ..options
    };
    for (stated, reason) in [
        (terms(KEY), Reason::WrongTag),
        (Terms { options, ..stated }, Reason::BadAuth),
        (
            Terms {
                payload_limit: Some(1),
                ..stated
            },
            Reason::PayloadTooLong,
        ),
        (
            Terms {
                least_secret: 5,
                ..stated
            },
            Reason::NoKey,
        ),
    ] {
        let table = TermsTable::read(&mut block, &stated).expect("the keys are good");
        let error = table.authenticate(&message).unwrap_err();
        assert_eq!(error.reason(), Some(reason));
    }
}

#[test]
fn what_is_no_terms() {
    let mut block = Block::new();
    let error = TermsTable::read(&mut block, &terms(b"\x80")).unwrap_err();
    assert_eq!(error.reason(), Some(Reason::BadKeySet));
    let long = vec![0; 65_536];
    let options = Options {
        aad: &long,
        ..Options::default()
    };
    let wrong = [
        (
            Terms {
                options,
                ..terms(KEY)
            },
            Error::AadTooLong,
        ),
        (
            Terms {
                algorithms: Some(&[]),
                ..terms(KEY)
            },
            Error::BadArgument,
        ),
        (
            Terms {
                understood: &[0],
                ..terms(KEY)
            },
            Error::BadArgument,
        ),
        (
            Terms {
                payload_limit: Some(0),
                ..terms(KEY)
            },
            Error::BadArgument,
        ),
    ];
    for (stated, error) in wrong {
        assert_eq!(
            TermsTable::read(&mut block, &stated).unwrap_err(),
            error,
            "{stated:?}"
        );
    }
}

#[test]
fn requirements() {
    let (message, mut block) = (hex(crate::HI), Block::new());
    let table = TermsTable::read(&mut block, &terms(KEY)).expect("the keys are good");
    // the payload is no map of claims
    let now = Requirements {
        now: 1,
        ..Requirements::default()
    };
    let refused = table.admit(&now, &message).unwrap_err();
    assert!(matches!(refused, NotAdmitted::Error(Error::Claims(_))));
    for wrong in [
        Requirements::default(),
        Requirements {
            issuer: Some(""),
            ..now
        },
    ] {
        let refused = table.admit(&wrong, &message).unwrap_err();
        assert_eq!(refused, NotAdmitted::Error(Error::BadArgument));
    }
    let token = hex(EXPIRING);
    assert_eq!(table.admit(&now, &token).map(|it| it.exp), Ok(Some(2)));
    let unmet = NotAdmitted::Unmet {
        requirement: Requirement::Issuer,
        place: 0,
    };
    let issuer = Requirements {
        issuer: Some("as"),
        ..now
    };
    assert_eq!(table.admit(&issuer, &token).unwrap_err(), unmet);
}
