//! Verifiers that are fed, under the keys of a table that was read once.

use std::fmt::Debug;

use crate::sizes::{fed, row, AFTER, AFTER_DETACHED};
use crate::terms_table::{terms, KEY};
use crate::{hex, HI};
use cose::{
    Block, Error, KeyTable, Large, Options, Reason, Refusal, Size, Small, Status, Terms,
    TermsTable, Verifier, Wanted,
};

/// [`HI`] with its payload detached.
const DETACHED: &str =
    "d18443a10105a0f658207d81e964aaee5fbd8adfb3f533657a9ef9f782f04b91877b6004272a0352f960";

/// [`HI`] with an identifier, which no MAC covers: with `1` it is that of `rows/made.json`, test 2.
fn identified(kid: &str) -> Vec<u8> {
    hex(&format!("d18443a10105a10441{kid}{}", &HI[14..]))
}

fn refused<T>(reason: Reason, place: u64) -> Result<T, Error> {
    Err(Error::Message(Refusal { reason, place }))
}

/// What becomes of a message, in pieces, of a verifier of each size.
fn each_size(
    table: &KeyTable<'_>,
    options: &Options<'_>,
    message: &[u8],
) -> [Result<Vec<u8>, Error>; 2] {
    [
        answer::<Small>(table, options, message),
        answer::<Large>(table, options, message),
    ]
}

/// The same of one size, and again after a reset.
fn answer<S: Size>(
    table: &KeyTable<'_>,
    options: &Options<'_>,
    message: &[u8],
) -> Result<Vec<u8>, Error> {
    let mut block = Box::default();
    let mut verifier = Verifier::<S>::open_under_table(&mut block, table, options)?;
    let first = fed(&mut verifier, message, 7);
    verifier.reset();
    assert_eq!(fed(&mut verifier, message, message.len()), first);
    first
}

/// Both sizes answer the same.
fn both<T: Clone + Debug + PartialEq>(found: &[T; 2], wanted: T) {
    assert_eq!(*found, [wanted.clone(), wanted]);
}

#[test]
fn good_and_forged() {
    let (good, mut block) = (hex(HI), Block::new());
    let table = KeyTable::read(&mut block, KEY).expect("the key is good");
    let options = Options::default();
    both(&each_size(&table, &options, &good), Ok(b"hi".to_vec()));
    for at in [8, 43] {
        let mut forged = good.clone();
        forged[at] ^= 1;
        both(
            &each_size(&table, &options, &forged),
            refused(Reason::BadAuth, 10),
        );
    }
    both(
        &each_size(&table, &options, &good[..20]),
        refused(Reason::Truncated, 20),
    );
}

#[test]
fn one_message_after_another() {
    let (good, mut block, mut table_block) = (hex(HI), Block::new(), Block::new());
    let mut forged = good.clone();
    forged[43] ^= 1;
    let table = KeyTable::read(&mut table_block, KEY).expect("the key is good");
    let mut verifier = Verifier::under_table(&mut block, &table, &Options::default())
        .expect("the external data isn't long");
    for _ in 0..3 {
        for (message, wanted) in [
            (&good, Ok(b"hi".to_vec())),
            (&forged, refused(Reason::BadAuth, 10)),
        ] {
            assert_eq!(fed(&mut verifier, message, 10), wanted);
            verifier.reset();
        }
    }
}

/// The identifier chooses the key. Of two that fit neither is taken.
#[test]
fn two_keys() {
    // the secrets `Jefe` and `Jeff`, with the identifiers `1` and `2`
    let keys = hex("82a30104024131 20444a656665 a30104024132 20444a656666"
        .replace(' ', "")
        .as_str());
    let mut block = Block::new();
    let table = KeyTable::read(&mut block, &keys).expect("the keys are good");
    let options = Options::default();
    let hi = Ok(b"hi".to_vec());
    both(&each_size(&table, &options, &identified("31")), hi);
    for (message, reason, place) in [
        (identified("32"), Reason::BadAuth, 13),
        (identified("33"), Reason::NoKey, 10),
        (hex(HI), Reason::AmbiguousKey, 7),
    ] {
        both(
            &each_size(&table, &options, &message),
            refused(reason, place),
        );
    }

    let message = identified("31");
    let mut block = Block::new();
    let mut verifier =
        Verifier::under_table(&mut block, &table, &options).expect("the external data isn't long");
    let stated = Terms {
        options: Options {
            wanted: Wanted::Mac0,
            ..options
        },
        short_mac: true,
        without_alg: true,
        ..terms(&keys)
    };
    assert_eq!(verifier.key_of(&stated), Ok(None));
    assert!(verifier.feed(&message).is_ok());
    let key = verifier.key_of(&stated).expect("the terms are good");
    assert_eq!(key.expect("the first key").bytes(), &keys[1..13]);
}

#[test]
fn a_signature() {
    let keys = include_bytes!("../../../../examples/sign1_key.cbor");
    let message = include_bytes!("../../../../examples/sign1.cbor");
    let (mut block, mut table_block) = (Block::new(), Block::new());
    let table = KeyTable::read(&mut table_block, keys).expect("the key is good");
    let mut verifier = Verifier::under_table(&mut block, &table, &Options::default())
        .expect("the external data isn't long");
    for good in [true, false] {
        assert!(verifier.feed(message).is_ok());
        let verdict = verifier.verdict(|input| input.place() == 32 && good);
        let wanted = if good {
            Ok(20)
        } else {
            refused(Reason::BadAuth, 32)
        };
        assert_eq!(verdict.map(|it| it.payload_length), wanted);
        verifier.reset();
    }
}

#[test]
fn no_usable_key() {
    let mut block = Block::new();
    // a key without a secret, and one of another algorithm
    for keys in ["a10104", "a30104030620444a656665"] {
        let keys = hex(keys);
        let table = KeyTable::read(&mut block, &keys).expect("it is a key set");
        both(
            &each_size(&table, &Options::default(), &hex(HI)),
            refused(Reason::NoKey, 7),
        );
    }
}

#[test]
fn options() {
    let mut block = Block::new();
    let table = KeyTable::read(&mut block, KEY).expect("the key is good");
    let untagged = hex(&HI[2..]);
    let mac0 = Options {
        wanted: Wanted::Mac0,
        ..Options::default()
    };
    both(&each_size(&table, &mac0, &untagged), Ok(b"hi".to_vec()));
    both(
        &each_size(&table, &Options::default(), &untagged),
        refused(Reason::WrongTag, 0),
    );
    let other = Options {
        aad: b"data",
        ..Options::default()
    };
    both(
        &each_size(&table, &other, &hex(HI)),
        refused(Reason::BadAuth, 10),
    );
    let long = vec![0; 65_536];
    let long = Options {
        aad: &long,
        ..Options::default()
    };
    both(&each_size(&table, &long, &hex(HI)), Err(Error::AadTooLong));
    let mut block = Block::new();
    let verifier = Verifier::under_table(&mut block, &table, &long);
    assert_eq!(verifier.unwrap_err(), Error::AadTooLong);
}

/// The payload's length of a message whose payload is detached.
fn detached<S: Size>(
    table: &KeyTable<'_>,
    options: &Options<'_>,
    message: &[u8],
    payload: &[u8],
) -> Result<u64, Error> {
    let (mut block, length) = (Box::default(), payload.len() as u64);
    let mut verifier =
        Verifier::<S>::open_under_table_detached(&mut block, table, options, length)?;
    let used = verifier.feed(message)?.used;
    assert_eq!(verifier.status(), Ok(Status::PayloadNext));
    assert_eq!(verifier.payload_wanted(), length);
    let (first, second) = payload.split_at(1);
    assert_eq!(verifier.feed_payload(first), 1);
    assert_eq!(verifier.feed_payload(second), second.len());
    let fed = verifier.feed(&message[used..])?;
    assert_eq!(
        (fed.used, fed.status),
        (message.len() - used, Status::Complete)
    );
    verifier.verdict(|_| false).map(|it| it.payload_length)
}

#[test]
fn detached_payloads() {
    let mut block = Block::new();
    let table = KeyTable::read(&mut block, KEY).expect("the key is good");
    let message = hex(DETACHED);
    let each = |options: &Options<'_>, message: &[u8], payload: &[u8]| {
        [
            detached::<Small>(&table, options, message, payload),
            detached::<Large>(&table, options, message, payload),
        ]
    };
    let options = Options::default();
    both(&each(&options, &message, b"hi"), Ok(2));
    for payload in [b"ho".as_slice(), b"hi!"] {
        both(
            &each(&options, &message, payload),
            refused(Reason::BadAuth, 8),
        );
    }
    let mac0 = Options {
        wanted: Wanted::Mac0,
        ..options
    };
    both(&each(&mac0, &message[1..], b"hi"), Ok(2));
    both(
        &each(&options, &message[1..], b"hi"),
        refused(Reason::WrongTag, 0),
    );
    let other = Options {
        aad: b"data",
        ..options
    };
    both(&each(&other, &message, b"hi"), refused(Reason::BadAuth, 8));
    both(
        &each(&options, &hex(HI), b"hi"),
        refused(Reason::Attached, 7),
    );
    let long = vec![0; 65_536];
    let long = Options {
        aad: &long,
        ..options
    };
    both(&each(&long, &message, b"hi"), Err(Error::AadTooLong));
}

/// An unprotected bucket of 1,025 bytes (`rows/commands.json`, test 208), which only the large size has room for.
#[test]
fn large_headers() {
    let mut block = Block::new();
    let table = KeyTable::read(&mut block, KEY).expect("the key is good");
    let options = Options::default();
    let message = row("d18443a10105a20c050a5903fa", 1_018, AFTER);
    let found = each_size(&table, &options, &message);
    assert_eq!(found, [refused(Reason::PastRoom, 10), Ok(b"hi".to_vec())]);
    let message = row("d18443a10105a20c050a5903fa", 1_018, AFTER_DETACHED);
    let found = detached::<Large>(&table, &options, &message, b"hi");
    assert_eq!(found, Ok(2));
    let found = detached::<Small>(&table, &options, &message, b"hi");
    assert_eq!(found, refused(Reason::PastRoom, 10));
}

/// A verifier needs the table's memory, and no [`KeyTable`]: one that a function has made serves after it.
#[test]
fn the_table_may_go() {
    fn opened<'k>(
        block: &'k mut cose::VerifierBlock,
        table: &'k mut cose::TableBlock,
    ) -> Verifier<'k> {
        let table = KeyTable::read(table, KEY).expect("the key is good");
        Verifier::under_table(block, &table, &Options::default())
            .expect("the external data isn't long")
    }
    let (mut block, mut table_block) = (Block::new(), Block::new());
    let mut verifier = opened(&mut block, &mut table_block);
    assert_eq!(fed(&mut verifier, &hex(HI), 9), Ok(b"hi".to_vec()));
    table_block.wipe();
}

/// Of a table under terms the keys are taken that these permit, and nothing else that they state.
#[test]
fn under_terms() {
    let options = Options {
        aad: b"data",
        wanted: Wanted::Sign1,
    };
    let stated = Terms {
        options,
        payload_limit: Some(1),
        ..terms(KEY)
    };
    let mut block = Block::new();
    let table = TermsTable::read(&mut block, &stated).expect("the key is permitted");
    assert_eq!(table.keys().usable(), 1);
    let (options, message) = (Options::default(), hex(HI));
    let found = each_size(&table.keys(), &options, &message);
    both(&found, Ok(b"hi".to_vec()));
    let verdict = table.keys().verify(&options, &message);
    let payload = verdict.map(|it| it.payload_if(|_| false));
    assert_eq!(payload, Ok(Some(b"hi".as_slice())));

    let stated = Terms {
        least_secret: 5,
        ..terms(KEY)
    };
    let table = TermsTable::read(&mut block, &stated).expect("it is a key set");
    assert_eq!(table.keys().usable(), 0);
    let found = each_size(&table.keys(), &options, &message);
    both(&found, refused(Reason::NoKey, 7));
}
