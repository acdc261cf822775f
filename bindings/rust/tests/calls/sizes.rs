//! The two sizes: rows of `rows/commands.json`, by their numbers, each message in memory and in pieces.

use std::sync::Mutex;
use std::thread;

use crate::{hex, JEFE};
use cose::{
    Error, Large, LargeVerifierBlock, Options, Policy, Reason, Refusal, Size, Small, Status,
    Verdict, Verifier,
};

/// What follows the protected bucket of [`HI`](crate::HI) and an unprotected bucket.
pub(crate) const AFTER: &str =
    "42686958207d81e964aaee5fbd8adfb3f533657a9ef9f782f04b91877b6004272a0352f960";

/// The same of a detached payload.
pub(crate) const AFTER_DETACHED: &str =
    "f658207d81e964aaee5fbd8adfb3f533657a9ef9f782f04b91877b6004272a0352f960";

/// A token whose claims nest 16 deep: 709.
const DEEP: &str = "d18443a10105a053a11864818181818181818181818181818181005820e24311281505e2160b1c42e5b4ec442b5e00260face7ea82c79051387ea773db";

const FREE: Policy<'static> = Policy {
    now: 0,
    leeway: 0,
    audience: None,
};

/// The bytes of a row: so many bytes of 5a are between its beginning and its end.
pub(crate) fn row(beginning: &str, count: usize, end: &str) -> Vec<u8> {
    hex(&(beginning.to_string() + &"5a".repeat(count) + end))
}

fn refused<T>(reason: Reason, place: u64) -> Result<T, Error> {
    Err(Error::Message(Refusal { reason, place }))
}

/// The payload of a message that is fed in pieces of a length, where it is authentic.
pub(crate) fn fed<S: Size>(
    verifier: &mut Verifier<'_, S>,
    message: &[u8],
    length: usize,
) -> Result<Vec<u8>, Error> {
    let mut payload = Vec::new();
    for piece in message.chunks(length) {
        payload.extend_from_slice(verifier.feed(piece)?.payload);
    }
    verifier.end()?;
    verifier.verdict(|_| false)?;
    Ok(payload)
}

/// The payload of a message in memory, where it is authentic. It is the same in pieces.
fn verified<S: Size>(message: &[u8]) -> Result<Vec<u8>, Error> {
    let (keys, options) = (hex(JEFE), Options::default());
    let at_once = S::verify(&keys, &options, message).map(|verdict| {
        let payload = verdict.payload_if(|_| false);
        payload.expect("it has no signature").to_vec()
    });
    let mut block = Box::default();
    let mut verifier = Verifier::<S>::open(&mut block, &keys, &options).expect("the keys are good");
    for length in [1, 1_000, message.len()] {
        assert_eq!(fed(&mut verifier, message, length), at_once);
        verifier.reset();
    }
    at_once
}

#[test]
fn rooms() {
    let good = || Ok(b"hi".to_vec());
    let room = |place| refused(Reason::PastRoom, place);
    let tag = "a04268695820e17d2b27da6e3beffe719b7db70c035f2f21b8ba804912a43513200b042343e2"; // 690
    let most = "a04268695820f318e3c77563f5742c97fafc027cfe560a7a9d198fabf22c51af7e51ae9229fb"; // 692
    let past = "a04268695820142e63056eb4063960e19d23db1749c305a963c1b35d32b3827e3e2bd22a80f4"; // 693
    let rows = [
        // 690 and 691: a protected bucket of 1,025 bytes; 692, 693: of 65,535 and 65,536
        (row("d184590401a201050a5903fa", 1_018, tag), good(), room(2)),
        (
            row("d18459ffffa201050a59fff8", 65_528, most),
            good(),
            room(2),
        ),
        (
            row("d1845a00010000a201050a59fff9", 65_529, past),
            room(2),
            room(2),
        ),
        // 207 and 208: an unprotected bucket of 1,024 and 1,025 bytes; 694, 695: of 65,535 and 65,536
        (
            row("d18443a10105a20c050a5903f9", 1_017, AFTER),
            good(),
            good(),
        ),
        (
            row("d18443a10105a20c050a5903fa", 1_018, AFTER),
            good(),
            room(10),
        ),
        (
            row("d18443a10105a20c050a59fff8", 65_528, AFTER),
            good(),
            room(10),
        ),
        (
            row("d18443a10105a20c050a59fff9", 65_529, AFTER),
            room(10),
            room(10),
        ),
    ];
    for (message, large, small) in rows {
        let count = message.len();
        assert_eq!(verified::<Large>(&message), large, "{count} bytes");
        assert_eq!(verified::<Small>(&message), small, "{count} bytes");
    }
    // 700: another byte
    let mut message = row("d184590401a201050a5903fa", 1_018, tag);
    message[100] ^= 1;
    assert_eq!(verified::<Large>(&message), refused(Reason::BadAuth, 1_034));
}

#[test]
fn nesting() {
    let protected = "a042686958200994492a40a6f43323d627531e89896d833c74ec09ab8382277393c49d26953d";
    let rows = [
        // 697 and 698: an unprotected bucket that nests 16 and 17 deep
        ("d18443a10105a10a", 15, AFTER, Ok(b"hi".to_vec())),
        ("d18443a10105a10a", 16, AFTER, refused(Reason::TooDeep, 23)),
        // 699: a protected one that nests 17 deep
        (
            "d18455a201050a",
            16,
            protected,
            refused(Reason::TooDeep, 22),
        ),
    ];
    for (beginning, arrays, end, wanted) in rows {
        let message = hex(&format!("{beginning}{}00{end}", "81".repeat(arrays)));
        assert_eq!(verified::<Large>(&message), wanted, "{beginning}");
        let error = verified::<Small>(&message).unwrap_err();
        assert_eq!(error.reason(), Some(Reason::TooDeep));
    }
}

#[test]
fn a_signature() {
    // 703
    let keys = hex(&format!(
        "a401022001215820{}225820{}",
        "07".repeat(32),
        "08".repeat(32)
    ));
    let signature: Vec<u8> = (0..64).collect();
    let mut message = row("d284590401a201260a5903fa", 1_018, "a0405840");
    message.extend_from_slice(&signature);
    let digest = hex("472669582733662226911488e8359db101e23ddeea2f0253ec800dd550a1023f");
    let options = Options::default();
    let Ok(Verdict::Signed(signed)) = Large::verify(&keys, &options, &message) else {
        panic!("a signature")
    };
    assert_eq!(signed.input().digest(), digest);
    let mut block = Box::<LargeVerifierBlock>::default();
    let mut verifier =
        Verifier::<Large>::open(&mut block, &keys, &options).expect("the keys are good");
    assert_eq!(
        verifier.feed(&message).map(|fed| fed.status),
        Ok(Status::Complete)
    );
    let found = verifier.verdict(|input| {
        assert_eq!((input.digest(), input.signature()), (&*digest, &*signature));
        true
    });
    assert_eq!(found.map(|found| (found.alg, found.taken)), Ok((-7, 1_098)));
    let error = Small::verify(&keys, &options, &message).unwrap_err();
    assert_eq!(error.reason(), Some(Reason::PastRoom));
}

#[test]
fn a_detached_payload() {
    // as 208, whose unprotected bucket no MAC covers
    let message = row("d18443a10105a20c050a5903fa", 1_018, AFTER_DETACHED);
    let (keys, options) = (hex(JEFE), Options::default());
    let verdict = Large::verify_detached(&keys, &options, &message, b"hi");
    let payload = verdict.map(|verdict| verdict.payload_if(|_| false));
    assert_eq!(payload, Ok(Some(b"hi".as_slice())));
    let error = Large::verify_detached(&keys, &options, &message, b"ho").unwrap_err();
    assert_eq!(error.reason(), Some(Reason::BadAuth));
    let error = Small::verify_detached(&keys, &options, &message, b"hi").unwrap_err();
    assert_eq!(Err(error), refused::<()>(Reason::PastRoom, 10));

    let mut block = Box::default();
    let mut verifier = Verifier::<Large>::open_detached(&mut block, &keys, &options, 2)
        .expect("the keys are good");
    let fed = verifier.feed(&message).expect("it isn't refused");
    assert_eq!((fed.used, fed.status), (1_032, Status::PayloadNext));
    assert_eq!((verifier.payload_wanted(), verifier.wanted()), (2, 0));
    assert_eq!(verifier.feed_payload(b"hi and more"), 2);
    assert_eq!(
        verifier.feed(&message[1_032..]).map(|fed| fed.status),
        Ok(Status::Complete)
    );
    let found = verifier.verdict(|_| false).expect("it is authentic");
    assert_eq!((found.payload_length, verifier.taken()), (2, 1_066));
}

#[test]
fn tokens() {
    // 710: claims that nest 17 deep
    let claims = |reason, place| Error::Claims(Refusal { reason, place });
    let token = hex(DEEP);
    let deeper = hex("d18443a10105a054a118648181818181818181818181818181818100582074019dcdbe1555cd94d82b52c53604825dbd76ec79ef5a82dbbde71d72e98830");
    let keys = hex(JEFE);
    let found = Large::verify_cwt(&keys, b"", &FREE, &token).expect("it is admitted");
    assert_eq!(found.payload(), &token[8..27]);
    let error = Large::verify_cwt(&keys, b"", &FREE, &deeper).unwrap_err();
    assert_eq!(error, claims(Reason::TooDeep, 18));
    let error = Small::verify_cwt(&keys, b"", &FREE, &token).unwrap_err();
    assert_eq!(error, claims(Reason::TooDeep, 10));

    // the same claims, and an audience
    let payload = hex(&format!("a20382616161621864{}00", "81".repeat(15)));
    let found = Large::claims(&payload, &FREE).expect("they are admitted");
    assert!(found.audiences().eq(["a", "b"]));
    let error = Small::claims(&payload, &FREE).unwrap_err();
    assert_eq!(error.reason(), Some(Reason::TooDeep));
}

/// What a function answers in a thread that has a stack of so many bytes.
fn with_stack(bytes: usize, function: fn() -> bool) -> bool {
    let thread = thread::Builder::new().stack_size(bytes).spawn(function);
    thread.expect("there are threads").join().expect("no panic")
}

#[test]
fn stacks() {
    assert!(with_stack(160 << 10, || {
        let message = row("d18443a10105a20c050a59fff8", 65_528, AFTER);
        Large::verify(&hex(JEFE), &Options::default(), &message).is_ok()
    }));
    assert!(with_stack(160 << 10, || {
        let message = row("d18443a10105a20c050a59fff8", 65_528, AFTER_DETACHED);
        Large::verify_detached(&hex(JEFE), &Options::default(), &message, b"hi").is_ok()
    }));
    assert!(with_stack(160 << 10, || {
        Large::verify_cwt(&hex(JEFE), b"", &FREE, &hex(DEEP)).is_ok()
    }));
    // the block isn't on the stack
    assert!(with_stack(32 << 10, || {
        static BLOCK: Mutex<LargeVerifierBlock> = Mutex::new(LargeVerifierBlock::new());
        let (keys, message) = (hex(JEFE), row("d18443a10105a20c050a59fff8", 65_528, AFTER));
        let mut block = BLOCK.lock().expect("no thread has panicked");
        let mut verifier = Verifier::<Large>::open(&mut block, &keys, &Options::default())
            .expect("the keys are good");
        fed(&mut verifier, &message, 1_000).is_ok()
    }));
}

#[test]
fn a_verifier_without_a_size_is_small() {
    fn held(verifier: &mut Verifier<'_>) -> u64 {
        verifier.held()
    }
    let keys = hex(JEFE);
    let mut block = cose::Block::new();
    let mut verifier =
        Verifier::new(&mut block, &keys, &Options::default()).expect("the keys are good");
    let mut large_block = Box::default();
    let large = Verifier::<Large>::open(&mut large_block, &keys, &Options::default());
    assert_eq!(large.map(|mut large| large.held()), Ok(held(&mut verifier)));
}
