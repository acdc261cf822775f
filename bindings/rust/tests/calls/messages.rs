//! Messages in memory: rows of `rows/messages.json`, `rows/detached.json`, `rows/shapes.json` and `rows/sets.json`, by their numbers,
//! and the examples of RFC 9052.

use crate::{hex, HI, JEFE};
use cose::{
    shape, usable_keys, verify, verify_detached, verify_with, Curve, Error, Kind, Options, Reason,
    Refusal, Verdict, Wanted, Y,
};

/// A point of P-256, for `COSE_Sign1` in the rows.
const POINT: &str = "a40102200121582011111111111111111111111111111111111111111111111111111111111111112258202222222222222222222222222222222222222222222222222222222222222222";

/// `rows/messages.json`, test 110, without the byte that follows the message.
const SIGNED: &str = "d28443a10126a0405840000102030405060708090a0b0c0d0e0f101112131415161718191a1b1c1d1e1f202122232425262728292a2b2c2d2e2f303132333435363738393a3b3c3d3e3f";

fn refused(reason: Reason, place: u64) -> Error {
    Error::Message(Refusal { reason, place })
}

#[test]
fn refused_messages() {
    let trailing = HI.to_string() + "ff";
    let rows = [
        (JEFE, "", Reason::Truncated, 0),                       // 1
        (JEFE, "d0", Reason::Encrypted, 0),                     // 2
        (JEFE, "d18443a10105a1010500", Reason::BothBuckets, 7), // 15
        (JEFE, "d18443a10105a05fff", Reason::Indefinite, 7),    // 32
        // 33
        (
            JEFE,
            "d18443a10105a05b01000000000000000000",
            Reason::PayloadTooLong,
            7,
        ),
        // 43: the call takes the message alone
        (JEFE, &trailing, Reason::Trailing, 44),
        // 101
        (
            "82a30104024131204161a30104024131204162",
            "d18443a10105a10441314268695820",
            Reason::AmbiguousKey,
            10,
        ),
        ("a0", HI, Reason::NoKey, 7),                     // 105
        ("a30104030420444a656665", HI, Reason::NoKey, 7), // 106
    ];
    for (keys, message, reason, place) in rows {
        let error = verify(&hex(keys), &hex(message)).unwrap_err();
        assert_eq!(error, refused(reason, place), "{message}");
    }
}

#[test]
fn authentic_messages() {
    let two = "82a30104024131204161a40104024131048109204162";
    let rows = [
        (JEFE, Wanted::Tagged, HI), // 42
        (JEFE, Wanted::Mac0, &HI[2..]), // 97
        // 98
        ("a30104030520444a656665", Wanted::Tagged, "d18441a0a1010542686958204963f82283a82a20f5ae3449890fcfab608c2533aef3a04645eafc2e03886943"),
        // 102
        (two, Wanted::Tagged, "d18443a10105a104413142686958201e596b68e8712d3a63d41ce19477f1056df2d2606d147794689df11186e7b6dc"),
    ];
    for (keys, wanted, message) in rows {
        let message = &hex(message);
        let options = Options {
            wanted,
            ..Options::default()
        };
        let Ok(Verdict::Authentic(found)) = verify_with(&hex(keys), &options, message) else {
            panic!("{message:x?}")
        };
        assert_eq!(
            (found.kind, found.alg, found.payload),
            (Kind::Mac0, 5, b"hi".as_slice())
        );
    }
}

#[test]
fn each_bit_counts() {
    let (keys, mut message) = (hex(JEFE), hex(HI));
    for bit in 0..message.len() * 8 {
        message[bit / 8] ^= 1 << (bit % 8);
        assert!(verify(&keys, &message).is_err(), "bit {bit}");
        message[bit / 8] ^= 1 << (bit % 8);
    }
}

#[test]
fn each_prefix_is_truncated() {
    let (keys, message) = (hex(JEFE), hex(HI));
    for length in 0..message.len() {
        let error = verify(&keys, &message[..length]).unwrap_err();
        assert_eq!(error, refused(Reason::Truncated, length as u64));
    }
}

#[test]
fn a_signature_is_asked_for() {
    // 110 and, without its tag, 113
    let options = Options {
        wanted: Wanted::Sign1,
        ..Options::default()
    };
    for (options, message) in [(Options::default(), SIGNED), (options, &SIGNED[2..])] {
        let message = hex(message);
        let Ok(Verdict::Signed(signed)) = verify_with(&hex(POINT), &options, &message) else {
            panic!("a signature")
        };
        assert_eq!(signed.alg(), -7);
        let (key, x, y) = (signed.input().key(), [0x11; 32], [0x22; 32]);
        assert_eq!(
            (key.curve, key.x, key.y),
            (Curve::P256, x.as_slice(), Y::Bytes(&y))
        );
        let digest = hex("7c8b696077a3c78ec6a3036e56d76e3816a88331c4e4363b5a9d01a264a62899");
        assert_eq!(signed.input().digest(), digest);
        assert_eq!(signed.input().signature(), (0..64).collect::<Vec<u8>>());
        assert_eq!(signed.payload_if(|_| false), None);
        assert_eq!(signed.payload_if(|_| true), Some(b"".as_slice()));
    }
}

#[test]
fn the_sign_of_y() {
    let message = hex(SIGNED);
    for (byte, y, first) in [("f4", Y::Even, 2), ("f5", Y::Odd, 3)] {
        let keys = hex(&format!("a401022001215820{}22{byte}", "11".repeat(32)));
        let Ok(Verdict::Signed(signed)) = verify(&keys, &message) else {
            panic!("a signature")
        };
        let mut room = [0; cose::POINT_ROOM];
        let point = signed.input().key().sec1(&mut room);
        assert_eq!(
            (signed.input().key().y, point[0], point.len()),
            (y, first, 33)
        );
    }
}

#[test]
fn the_example_of_rfc_9052() {
    // appendix C.2.1, under the key of appendix C.7.1
    let keys = include_bytes!("../../../../examples/sign1_key.cbor");
    let message = include_bytes!("../../../../examples/sign1.cbor");
    let verdict = verify(keys, message).expect("it isn't refused");
    let payload = verdict.payload_if(|input| {
        let mut room = [0; cose::POINT_ROOM];
        let point = input.key().sec1(&mut room);
        assert_eq!((point[0], point.len(), input.digest().len()), (4, 65, 32));
        assert_eq!(input.place(), 32);
        true
    });
    assert_eq!(payload, Some(b"This is the content.".as_slice()));
}

#[test]
fn external_data() {
    // 225
    let message = hex(&format!("d28443a10126a0405840{}", "5a".repeat(64)));
    let options = Options {
        aad: b"\x01",
        ..Options::default()
    };
    let Ok(Verdict::Signed(signed)) = verify_with(&hex(POINT), &options, &message) else {
        panic!("a signature")
    };
    assert_eq!(signed.input().digest()[..6], hex("30ac9362b8c7"));
    let options = Options {
        aad: &vec![0; 65_536],
        ..Options::default()
    };
    assert_eq!(
        verify_with(&hex(POINT), &options, &message).unwrap_err(),
        Error::AadTooLong
    );
}

#[test]
fn a_detached_payload() {
    // rows/detached.json, test 1
    let message =
        hex("d18443a10105a0f658207d81e964aaee5fbd8adfb3f533657a9ef9f782f04b91877b6004272a0352f960");
    let (keys, options) = (hex(JEFE), Options::default());
    let payload = verify_detached(&keys, &options, &message, b"hi").expect("it isn't refused");
    assert_eq!(payload.payload_if(|_| false), Some(b"hi".as_slice()));
    let error = |payload| verify_detached(&keys, &options, &message, payload).unwrap_err();
    assert_eq!(error(b"ho"), refused(Reason::BadAuth, 8));
    assert_eq!(error(b""), refused(Reason::BadAuth, 8));
    assert_eq!(
        verify(&keys, &message).unwrap_err(),
        refused(Reason::Detached, 7)
    );
    let attached = verify_detached(&keys, &options, &hex(HI), b"hi").unwrap_err();
    assert_eq!(attached, refused(Reason::Attached, 7));
}

#[test]
fn shapes() {
    let found = shape(Wanted::Tagged, &hex(HI)).expect("rows/shapes.json, test 1");
    let numbers = (found.payload_length, found.auth_length, found.taken);
    assert_eq!((found.kind, numbers), (Kind::Mac0, (2, 32, 44)));
    let found = shape(Wanted::Sign1, &hex("8440a04040")).expect("test 38");
    assert_eq!((found.kind, found.taken), (Kind::Sign1, 5));
    let error = shape(Wanted::Mac0, &hex("d28440a04040")).unwrap_err(); // 37
    assert_eq!(error, refused(Reason::WrongTag, 0));
}

#[test]
fn key_sets() {
    // rows/sets.json, tests 1 and 2
    assert_eq!(
        (usable_keys(&hex("a0")), usable_keys(&hex("8100"))),
        (Ok(0), Ok(0))
    );
    let refusal = Refusal {
        reason: Reason::BadKeySet,
        place: 0,
    };
    assert_eq!(usable_keys(&hex("80")), Err(Error::Keys(refusal)));
    assert_eq!(
        verify(&hex("80"), &hex(HI)).unwrap_err(),
        Error::Keys(refusal)
    );
    let error = Error::Keys(refusal);
    assert_eq!(
        (error.reason(), error.place()),
        (Some(Reason::BadKeySet), Some(0))
    );
    assert_eq!(
        (Error::AadTooLong.reason(), Error::AadTooLong.place()),
        (None, None)
    );
}
