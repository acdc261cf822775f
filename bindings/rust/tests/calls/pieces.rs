//! Messages that are fed, messages under a table of keys, and messages that are made.

use std::sync::{Mutex, RwLock};
use std::thread;

use crate::{hex, HI, JEFE};
use cose::{
    Block, Error, KeyTable, Kind, MacAlg, Maker, Making, Options, Policy, Reason, Refusal, Status,
    Verdict, Verifier, HEAD_ROOM, TAIL_ROOM,
};

fn refused(reason: Reason, place: u64) -> Error {
    Error::Message(Refusal { reason, place })
}

#[test]
fn pieces_of_every_length() {
    let (keys, message) = (hex(JEFE), hex(HI));
    let mut block = Block::new();
    let mut verifier =
        Verifier::new(&mut block, &keys, &Options::default()).expect("the keys are good");
    for length in 1..=message.len() {
        let mut payload = Vec::new();
        for piece in message.chunks(length) {
            let fed = verifier.feed(piece).expect("it isn't refused");
            assert_eq!(fed.used, piece.len());
            payload.extend_from_slice(fed.payload);
        }
        assert_eq!(
            (verifier.status(), verifier.end()),
            (Ok(Status::Complete), Ok(()))
        );
        assert_eq!(
            (payload.as_slice(), verifier.taken()),
            (b"hi".as_slice(), 44)
        );
        for _ in 0..2 {
            let found = verifier
                .verdict(|_| unreachable!())
                .expect("it is authentic");
            assert_eq!(
                (found.kind, found.alg, found.payload_length, found.taken),
                (Kind::Mac0, 5, 2, 44)
            );
        }
        verifier.reset();
        assert_eq!((verifier.taken(), verifier.status()), (0, Ok(Status::More)));
    }
}

#[test]
fn no_byte_after_the_message_is_used() {
    let (keys, message) = (hex(JEFE), hex(&(HI.to_string() + "d184")));
    let mut block = Block::new();
    let mut verifier =
        Verifier::new(&mut block, &keys, &Options::default()).expect("the keys are good");
    let fed = verifier.feed(&message).expect("it isn't refused");
    assert_eq!(
        (fed.used, fed.payload, fed.status),
        (44, b"hi".as_slice(), Status::Complete)
    );
    assert_eq!(verifier.feed(&message).map(|fed| fed.used), Ok(0));
}

#[test]
fn an_early_end() {
    let (keys, message) = (hex(JEFE), hex(HI));
    let mut block = Block::new();
    let mut verifier =
        Verifier::new(&mut block, &keys, &Options::default()).expect("the keys are good");
    assert_eq!(
        verifier.feed(&message[..20]).map(|fed| fed.status),
        Ok(Status::More)
    );
    assert_eq!(verifier.verdict(|_| true), Err(Error::Incomplete));
    assert_eq!(verifier.end(), Err(refused(Reason::Truncated, 20)));
    assert!(verifier.verdict(|_| true).is_err());
    assert_eq!(verifier.status(), Err(refused(Reason::Truncated, 20)));
}

#[test]
fn a_signature_decides() {
    let keys = include_bytes!("../../../../examples/sign1_key.cbor");
    let message = include_bytes!("../../../../examples/sign1.cbor");
    let mut block = Block::new();
    let mut verifier =
        Verifier::new(&mut block, keys, &Options::default()).expect("the keys are good");
    for good in [true, false] {
        assert_eq!(
            verifier.feed(message).map(|fed| fed.status),
            Ok(Status::Complete)
        );
        let verdict = verifier.verdict(|input| input.place() == 32 && good);
        match verdict {
            Ok(found) => assert_eq!(
                (good, found.kind, found.payload_length),
                (true, Kind::Sign1, 20)
            ),
            Err(error) => assert_eq!((good, error), (false, refused(Reason::BadAuth, 32))),
        }
        // the answer is kept, whatever is said later
        assert_eq!(verifier.verdict(|_| !good).is_ok(), good);
        verifier.reset();
    }
}

#[test]
fn a_detached_payload() {
    let keys = hex(JEFE);
    let message =
        hex("d18443a10105a0f658207d81e964aaee5fbd8adfb3f533657a9ef9f782f04b91877b6004272a0352f960");
    let mut block = Block::new();
    let mut verifier =
        Verifier::detached(&mut block, &keys, &Options::default(), 2).expect("the keys are good");
    for payload in [b"hi", b"ho"] {
        let fed = verifier.feed(&message).expect("it isn't refused");
        assert_eq!((fed.used, fed.status), (8, Status::PayloadNext));
        assert_eq!(
            (verifier.payload_wanted(), verifier.feed_payload(b"")),
            (2, 0)
        );
        assert_eq!(verifier.feed_payload(&payload[..1]), 1);
        assert_eq!(
            (
                verifier.feed_payload(b"i and more"),
                verifier.payload_wanted()
            ),
            (1, 0)
        );
        let rest = &message[8..];
        assert_eq!(verifier.feed(rest).map(|fed| fed.used), Ok(rest.len()));
        assert_eq!(
            verifier
                .verdict(|_| false)
                .map(|found| found.payload_length),
            Ok(2)
        );
        verifier.reset();
        let fed = verifier.feed(&message).expect("it isn't refused");
        assert_eq!((fed.used, verifier.feed_payload(b"ho")), (8, 2));
        let error = verifier.feed(rest).map(|fed| fed.status).unwrap_err();
        assert_eq!(error, refused(Reason::BadAuth, 8));
        verifier.reset();
    }
}

#[test]
fn refused_keys() {
    let refusal = Refusal {
        reason: Reason::BadKeySet,
        place: 0,
    };
    let mut block = Block::new();
    let error = Verifier::new(&mut block, b"\x80", &Options::default()).unwrap_err();
    assert_eq!(error, Error::Keys(refusal));
    let options = Options {
        aad: &vec![0; 65_536],
        ..Options::default()
    };
    let error = Verifier::new(&mut block, &[0xa0], &options).unwrap_err();
    assert_eq!(error, Error::AadTooLong);
    let mut block = Block::new();
    assert_eq!(
        KeyTable::read(&mut block, b"\x80").unwrap_err(),
        Error::Keys(refusal)
    );
}

#[test]
fn a_table() {
    let (keys, message) = (hex(JEFE), hex(HI));
    let mut block = Block::new();
    let table = KeyTable::read(&mut block, &keys).expect("the keys are good");
    assert_eq!(table.usable(), 1);
    for _ in 0..2 {
        let Ok(Verdict::Authentic(found)) = table.verify(&Options::default(), &message) else {
            panic!("refused")
        };
        assert_eq!((found.alg, found.payload), (5, b"hi".as_slice()));
        let error = table
            .verify(&Options::default(), &message[1..])
            .unwrap_err();
        assert_eq!(error, refused(Reason::WrongTag, 0));
        let policy = Policy {
            now: 0,
            leeway: 0,
            audience: None,
        };
        let error = table.verify_cwt(b"", &policy, &message).unwrap_err();
        assert!(matches!(error, Error::Claims(_)));
    }
    // 65 keys are more than a table holds
    let many = hex(&format!("9841{}", "a20104204161".repeat(65)));
    let mut block = Block::new();
    let refusal = Refusal {
        reason: Reason::BadKeySet,
        place: 0,
    };
    assert_eq!(
        KeyTable::read(&mut block, &many).unwrap_err(),
        Error::Keys(refusal)
    );
    let most = hex(&format!("9840{}", "a20104204161".repeat(64)));
    assert_eq!(
        KeyTable::read(&mut block, &most).map(|table| table.usable()),
        Ok(64)
    );
}

#[test]
fn made_messages() {
    // rows/made.json, tests 1 and 2
    let kid = "d18443a10105a104413142686958207d81e964aaee5fbd8adfb3f533657a9ef9f782f04b91877b6004272a0352f960";
    let key = hex(JEFE);
    for (kid, wanted) in [("", HI), ("31", kid)] {
        let kid = hex(kid);
        let making = Making {
            alg: MacAlg::Hmac256,
            kid: &kid,
            aad: b"",
        };
        let (mut block, mut head, mut tail) = (Block::new(), [0; HEAD_ROOM], [0; TAIL_ROOM]);
        let (mut maker, head) =
            Maker::begin(&mut block, &key, &making, 2, &mut head).expect("the key is good");
        assert_eq!((maker.piece(b"h"), maker.piece(b"i!")), (1, 1));
        let tail = maker.end(&mut tail).expect("the payload is whole");
        assert_eq!([head, b"hi", tail].concat(), hex(wanted));
    }
}

#[test]
fn messages_that_are_not_made() {
    let making = |alg, kid| Making { alg, kid, aad: b"" };
    let begun = |key: &[u8], making: &Making, length| {
        let (mut block, mut head) = (Block::new(), [0; HEAD_ROOM]);
        Maker::begin(&mut block, key, making, length, &mut head).map(|_| ())
    };
    let (key, good) = (hex(JEFE), making(MacAlg::Hmac512, b""));
    assert_eq!(begun(&key, &good, (1 << 56) - 1), Ok(()));
    assert_eq!(begun(&key, &good, 1 << 56), Err(Error::BadArgument));
    assert_eq!(begun(&key, &making(MacAlg::Hmac512, &[0; 255]), 2), Ok(()));
    assert_eq!(
        begun(&key, &making(MacAlg::Hmac512, &[0; 256]), 2),
        Err(Error::BadArgument)
    );
    // a key of HMAC 256/256 makes no other MAC
    let other = hex("a30104030520444a656665");
    assert_eq!(begun(&other, &making(MacAlg::Hmac256, b""), 2), Ok(()));
    assert_eq!(begun(&other, &good, 2), Err(Error::WrongKey));
    assert_eq!(
        begun(&[0x80], &good, 2).map_err(|error| error.reason()),
        Err(Some(Reason::NotMap))
    );
}

#[test]
fn a_message_that_lacks_payload() {
    let making = Making {
        alg: MacAlg::Hmac512,
        kid: b"",
        aad: b"",
    };
    let (mut block, mut head, mut tail) = (Block::new(), [0; HEAD_ROOM], [0; TAIL_ROOM]);
    let (mut maker, _) =
        Maker::begin(&mut block, &hex(JEFE), &making, 2, &mut head).expect("the key is good");
    assert_eq!(maker.piece(b"h"), 1);
    assert_eq!(maker.end(&mut tail), Err(Error::Incomplete));
}

#[test]
fn other_threads() {
    fn may_go<T: Send>(value: T) -> T {
        value
    }
    let keys = hex(JEFE);
    let mut block = Block::new();
    let verifier = Verifier::new(&mut block, &keys, &Options::default());
    let mut verifier = may_go(verifier).expect("the keys are good");
    let message = hex(HI);
    let found = std::thread::scope(|scope| {
        let thread = scope.spawn(|| {
            let _fed = verifier.feed(&message)?;
            verifier.verdict(|_| false)
        });
        thread.join().expect("it doesn't panic")
    });
    assert_eq!(found.map(|found| found.taken), Ok(44));
}

/// A maker goes to other threads, and each call has it alone: `RwLock` wants it to be `Sync` too.
#[test]
fn threads_share_a_maker() {
    let keys = hex(JEFE);
    let making = Making {
        alg: MacAlg::Hmac256,
        kid: b"",
        aad: b"",
    };
    let (mut block, mut head, mut tail) = (Block::new(), [0; HEAD_ROOM], [0; TAIL_ROOM]);
    let (maker, head) =
        Maker::begin(&mut block, &keys, &making, 400, &mut head).expect("the key is good");
    let maker = RwLock::new(maker);
    let used = Mutex::new(0);
    thread::scope(|scope| {
        for _ in 0..4 {
            scope.spawn(|| {
                for _ in 0..100 {
                    *used.lock().expect("no panic") += maker.write().expect("no panic").piece(&[0]);
                }
            });
        }
    });
    assert_eq!(used.into_inner().expect("no panic"), 400);
    let maker = maker.into_inner().expect("no panic");
    let tail = maker.end(&mut tail).expect("the payload is whole");
    let made = [head, &[0; 400], tail].concat();
    assert!(cose::verify(&keys, &made).is_ok());
}

/// Gives a byte at a time, each of them after an interruption.
#[cfg(feature = "std")]
struct Interrupted<'b>(&'b [u8], bool);

#[cfg(feature = "std")]
impl std::io::Read for Interrupted<'_> {
    fn read(&mut self, into: &mut [u8]) -> std::io::Result<usize> {
        self.1 = !self.1;
        if self.1 {
            return Err(std::io::ErrorKind::Interrupted.into());
        }
        let count = into.len().min(1);
        self.0.read(&mut into[..count])
    }
}

#[cfg(feature = "std")]
#[test]
fn a_reader_that_is_interrupted_or_ends() {
    let (keys, message) = (hex(JEFE), hex(HI));
    for length in [44, 43, 8] {
        let mut block = Block::new();
        let mut verifier =
            Verifier::new(&mut block, &keys, &Options::default()).expect("the keys are good");
        let mut payload = Vec::new();
        let mut reader = Interrupted(&message[..length], false);
        match verifier.feed_from(&mut reader, &mut payload) {
            Ok(()) => assert_eq!((length, payload.as_slice()), (44, b"hi".as_slice())),
            Err(cose::ReadError::Refused(error)) => {
                assert_eq!(error, refused(Reason::Truncated, length as u64));
            }
            Err(error) => panic!("{error}"),
        }
    }
}
