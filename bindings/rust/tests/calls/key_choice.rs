//! Which key a message is verified with: one that is fed, and one with a large header.

use cose::{
    key_of_sized, mismatch_sized, Block, Error, Item, Large, Mismatch, Options, Reason, Size,
    Small, Terms, Verifier, Wanted,
};

/// A secret that names no algorithm, and from byte 10 one for HMAC 256/256.
const KEYS: &[u8] = b"\x82\xa2\x01\x04\x20\x44Jeff\xa3\x01\x04\x03\x05\x20\x44Jefe";

/// A `COSE_Mac0` under the second of these keys. Its header buckets end after seven bytes.
const MESSAGE: &[u8] = b"\xd1\x84\x43\xa1\x01\x05\xa0\x42hi\x58\x20\
    \x7d\x81\xe9\x64\xaa\xee\x5f\xbd\x8a\xdf\xb3\xf5\x33\x65\x7a\x9e\
    \xf9\xf7\x82\xf0\x4b\x91\x87\x7b\x60\x04\x27\x2a\x03\x52\xf9\x60";

fn terms(wanted: Wanted) -> Terms<'static> {
    let options = Options {
        wanted,
        ..Options::default()
    };
    Terms {
        keys: KEYS,
        options,
        ..Terms::default()
    }
}

/// A `COSE_Mac0` whose protected header has 1,039 bytes: alg 5, and 1,030 bytes at label 256.
fn large_message() -> Vec<u8> {
    let mut message = b"\xd1\x84\x59\x04\x0f\xa2\x01\x05\x19\x01\x00\x59\x04\x06".to_vec();
    message.extend([0; 1_030]);
    message.extend(b"\xa0\x42hi\x58\x20");
    message.extend([0; 32]);
    message
}

fn place(found: Result<Option<Item<'_>>, Error>) -> Option<u64> {
    found.expect("good terms").map(|key| key.place())
}

fn is_known_from_the_headers_on<S: Size>(block: &mut S::Block) {
    let terms = terms(Wanted::Mac0);
    let mut verifier = Verifier::<S>::open_under(block, &terms).expect("good terms");
    assert_eq!(place(verifier.key_of(&terms)), None);
    let _ = verifier.feed(&MESSAGE[..6]).expect("the message's front");
    assert_eq!(place(verifier.key_of(&terms)), None);
    let _ = verifier.feed(&MESSAGE[6..7]).expect("the empty bucket");
    assert_eq!(place(verifier.key_of(&terms)), Some(10));
    let _ = verifier.feed(&MESSAGE[7..]).expect("the rest");
    verifier.end().expect("the whole message");
    let _ = verifier.verdict(|_| false).expect("an authentic message");
    assert_eq!(place(verifier.key_of(&terms)), Some(10));
    verifier.reset();
    assert_eq!(place(verifier.key_of(&terms)), None);
}

#[test]
fn of_a_fed_message() {
    is_known_from_the_headers_on::<Small>(&mut Block::default());
    is_known_from_the_headers_on::<Large>(&mut Box::<cose::LargeVerifierBlock>::default());
}

#[test]
fn of_no_message_of_another_kind() {
    let mut block = Block::default();
    let mut verifier = Verifier::under(&mut block, &terms(Wanted::Mac0)).expect("good terms");
    let _ = verifier.feed(MESSAGE).expect("the whole message");
    for wanted in [Wanted::Tagged, Wanted::Sign1] {
        assert_eq!(place(verifier.key_of(&terms(wanted))), None);
    }
}

#[test]
fn of_a_large_header() {
    let (terms, message) = (terms(Wanted::Mac0), large_message());
    assert_eq!(place(terms.key_of(&message)), None);
    assert_eq!(place(key_of_sized::<Large>(&terms, &message)), Some(10));
    let refused = terms.mismatch(&message, 10);
    assert!(matches!(refused, Err(Error::Message(it)) if it.reason == Reason::PastRoom));
    assert_eq!(mismatch_sized::<Large>(&terms, &message, 10), Ok(None));
    let unnamed = mismatch_sized::<Large>(&terms, &message, 1);
    assert_eq!(unnamed, Ok(Some(Mismatch::NotPermitted)));
}
