//! Each parameter of each call: a call that is accepted with it and refused without, and one the other way round. The messages are rows
//! of `rows/commands.json`, by their numbers.

use crate::{hex, HI, JEFE};
use cose::{
    authenticate, authenticate_detached, parameter, shape, verify_cwt, verify_detached,
    verify_with, Block, Bucket, Error, Label, MacAlg, Maker, Making, Options, Policy, Reason,
    Status, Terms, Verifier, Wanted, HEAD_ROOM, TAIL_ROOM,
};

/// A message with the external data 01 02: 40.
const WITH_DATA: &str =
    "d18443a10105a042686958202851ac042157cdf448e2e2515895c0ee3a2fbb4a4b416d8fbb7b72d8be36d1ed";
const DATA: &[u8] = &[1, 2];

/// A detached payload, if the message has none, and how a message becomes one of that form.
type Form = (Option<&'static [u8]>, fn(&str) -> String);

const FORMS: [Form; 2] = [(None, attached), (Some(b"hi"), detached)];

fn attached(message: &str) -> String {
    message.to_string()
}

/// The same message whose payload is detached: its tag is the same.
fn detached(message: &str) -> String {
    message.replace("426869", "f6")
}

fn options(aad: &[u8], wanted: Wanted) -> Options<'_> {
    Options { aad, wanted }
}

/// What became of a message in memory, under terms that leave no key out too, and in pieces, with its payload or with a detached one.
fn reason_of(message: &str, options: &Options<'_>, payload: Option<&[u8]>) -> Option<Reason> {
    let (keys, message) = (hex(JEFE), hex(message));
    let at_once = match payload {
        None => verify_with(&keys, options, &message).map(|_| ()),
        Some(payload) => verify_detached(&keys, options, &message, payload).map(|_| ()),
    };
    let terms = Terms {
        keys: &keys,
        options: *options,
        short_mac: true,
        without_alg: true,
        ..Terms::default()
    };
    let under_terms = match payload {
        None => authenticate(&terms, &message).map(|_| ()),
        Some(payload) => authenticate_detached(&terms, &message, payload).map(|_| ()),
    };
    let fed = fed(&keys, &message, options, payload);
    let reasons = [at_once, under_terms, fed].map(|it| it.err().and_then(|error| error.reason()));
    assert!(reasons.iter().all(|it| *it == reasons[0]), "{reasons:?}");
    reasons[0]
}

fn fed(
    keys: &[u8],
    message: &[u8],
    options: &Options<'_>,
    payload: Option<&[u8]>,
) -> Result<(), Error> {
    let mut block = Block::new();
    let mut verifier = match payload {
        None => Verifier::new(&mut block, keys, options)?,
        Some(payload) => {
            let length = u64::try_from(payload.len()).expect("it is short");
            Verifier::detached(&mut block, keys, options, length)?
        }
    };
    let used = verifier.feed(message)?.used;
    if let Some(payload) = payload {
        verifier.feed_payload(payload);
        let _rest = verifier.feed(&message[used..])?;
    }
    verifier.end()?;
    verifier.verdict(|_| false).map(|_| ())
}

#[test]
fn external_data() {
    for (payload, form) in FORMS {
        let (plain, with_data) = (form(HI), form(WITH_DATA));
        let (none, data) = (options(b"", Wanted::Tagged), options(DATA, Wanted::Tagged));
        assert_eq!(reason_of(&with_data, &data, payload), None);
        assert_eq!(reason_of(&with_data, &none, payload), Some(Reason::BadAuth));
        assert_eq!(reason_of(&plain, &none, payload), None);
        assert_eq!(reason_of(&plain, &data, payload), Some(Reason::BadAuth));
    }
}

#[test]
fn the_kind() {
    for (payload, form) in FORMS {
        let (tagged, untagged) = (form(HI), form(&HI[2..]));
        let of = |message, wanted| reason_of(message, &options(b"", wanted), payload);
        assert_eq!(of(&untagged, Wanted::Mac0), None);
        assert_eq!(of(&untagged, Wanted::Tagged), Some(Reason::WrongTag));
        assert_eq!(of(&untagged, Wanted::Sign1), Some(Reason::UnknownAlg));
        assert_eq!(of(&tagged, Wanted::Tagged), None);
        assert_eq!(of(&tagged, Wanted::Sign1), Some(Reason::WrongTag));
    }
    let untagged = hex(&HI[2..]);
    assert!(shape(Wanted::Mac0, &untagged).is_ok());
    assert!(shape(Wanted::Tagged, &untagged).is_err());
    let alg = |wanted| parameter(&untagged, wanted, Bucket::Protected, Label::ALG);
    assert_eq!(alg(Wanted::Mac0).and_then(|it| it.as_int()), Some(5));
    assert_eq!(alg(Wanted::Tagged), None);
}

#[test]
fn the_length_of_a_detached_payload() {
    let (keys, message) = (hex(JEFE), hex(&detached(HI)));
    for (length, wanted) in [(2, None), (1, Some(Reason::BadAuth))] {
        let mut block = Block::new();
        let mut verifier =
            Verifier::detached(&mut block, &keys, &Options::default(), length).expect("the keys");
        assert_eq!(verifier.feed_payload(b"hi"), 0);
        let used = verifier.feed(&message).expect("it isn't refused").used;
        assert_eq!(verifier.feed(&message[used..]).map(|fed| fed.used), Ok(0));
        assert_eq!(verifier.feed_payload(b"hi and more") as u64, length);
        assert_eq!(verifier.feed_payload(b"more"), 0);
        let last = verifier.feed(&message[used..]);
        assert_eq!(last.err().and_then(|error| error.reason()), wanted);
    }
}

#[test]
fn the_data_of_a_token() {
    // the claims {}, with the external data 01 02: the tag is that of Python's hmac
    let token = hex(
        "d18443a10105a041a0582034d14c4e394d39b663cfbc32fa4753267c9c313ae44bc3e6d55c7cfe5f741a9e",
    );
    let policy = Policy {
        now: 0,
        leeway: 0,
        audience: None,
    };
    assert!(verify_cwt(&hex(JEFE), DATA, &policy, &token).is_ok());
    let error = verify_cwt(&hex(JEFE), b"", &policy, &token).unwrap_err();
    assert_eq!(error.reason(), Some(Reason::BadAuth));
}

#[test]
fn making() {
    let made = |alg, aad, length| {
        let (mut block, mut head, mut tail) = (Block::new(), [0; HEAD_ROOM], [0; TAIL_ROOM]);
        let making = Making { alg, kid: b"", aad };
        let (mut maker, head) =
            Maker::begin(&mut block, &hex(JEFE), &making, length, &mut head).expect("the key");
        let payload = &b"hi"[..maker.piece(b"hi")];
        // nothing follows the payload
        assert_eq!(maker.piece(b"more"), 0);
        [head, payload, maker.end(&mut tail).expect("it is whole")].concat()
    };
    assert_eq!(made(MacAlg::Hmac256, b"", 2), hex(HI));
    assert_eq!(made(MacAlg::Hmac256, DATA, 2), hex(WITH_DATA));
    let keys = hex(JEFE);
    for (alg, number) in [(MacAlg::Hmac256Of64, 4), (MacAlg::Hmac384, 6)] {
        let message = made(alg, b"", 1);
        let found = verify_with(&keys, &Options::default(), &message).expect("it is authentic");
        let cose::Verdict::Authentic(found) = found else {
            panic!("a COSE_Mac0")
        };
        assert_eq!((found.alg, found.payload), (number, b"h".as_slice()));
    }
}

#[test]
fn nothing_is_used_after_the_end() {
    let (keys, message) = (hex(JEFE), hex(HI));
    let mut block = Block::new();
    let mut verifier = Verifier::new(&mut block, &keys, &Options::default()).expect("the keys");
    assert_eq!(verifier.feed(b"").map(|fed| fed.used), Ok(0));
    let fed = verifier.feed(&message).expect("it isn't refused");
    assert_eq!((fed.used, fed.status), (message.len(), Status::Complete));
    assert_eq!(verifier.feed(&message).map(|fed| fed.used), Ok(0));
    assert_eq!(verifier.feed_payload(b"hi"), 0);
}
