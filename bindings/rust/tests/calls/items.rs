//! Claims of any label: the claims of `bindings/items.json`, and examples of RFC 8949 appendix A.

use crate::hex;
use cose::{
    claims, parameter, Bucket, Claims, Item, Label, Large, Options, Policy, Size, Verifier, Wanted,
};

/// The claims of `bindings/items.json`: exp, scope (9), nonce (10), ueid (256), -70000, the least and the greatest label, role, rol.
const PAYLOAD: &str = "a9041a5612aeb0096a726561642077726974650a480102030405060708190100510100000000000000000000000000000000\
    3a0001116f8201a165646570746883f5f6fb3ff80000000000003b7fffffffffffffff656c656173741b7fffffffffffffff646d6f73\
    7464726f6c65a16561646d696ef463726f6c01";

const FREE: Policy<'static> = Policy {
    now: 0,
    leeway: 0,
    audience: None,
};

fn read(payload: &[u8]) -> Claims<'_> {
    claims(payload, &FREE).expect("claims")
}

#[test]
fn the_claim_of_each_label() {
    let payload = hex(PAYLOAD);
    let found = read(&payload);
    let claim = |label| found.claim(label).expect("the claim is there");
    assert_eq!(claim(4).as_int(), Some(1_444_064_944));
    assert_eq!(claim(9).as_text(), Some("read write"));
    assert_eq!(
        claim(10).as_bytes(),
        Some(b"\x01\x02\x03\x04\x05\x06\x07\x08".as_slice())
    );
    assert_eq!(claim(256).as_bytes().map(<[u8]>::len), Some(17));
    assert_eq!(claim(i64::MIN).as_text(), Some("least"));
    assert_eq!(claim(i64::MAX).as_text(), Some("most"));
    let nested: Vec<_> = claim(-70000).items().collect();
    assert_eq!((nested.len(), nested[0].as_int()), (2, Some(1)));
    let pair: Vec<_> = nested[1].items().collect();
    assert_eq!(
        (nested[1].is_map(), pair[0].as_text()),
        (true, Some("depth"))
    );
    let depth: Vec<_> = pair[1].items().collect();
    assert_eq!(depth[0].as_bool(), Some(true));
    assert_eq!(
        (depth[1].simple(), depth[2].as_float()),
        (Some(22), Some(1.5))
    );
    let named = |name| found.claim_named(name);
    assert_eq!(named("rol").and_then(|it| it.as_int()), Some(1));
    assert!(named("role").is_some_and(|it| it.is_map()));
}

#[test]
fn no_claim_of_another_label() {
    let payload = hex(PAYLOAD);
    let found = read(&payload);
    for label in [5, 8, 11, -69_999, -70_001, i64::MIN + 1, i64::MAX - 1] {
        assert_eq!(found.claim(label), None, "{label}");
    }
    for name in ["roles", "ro", "", "9"] {
        assert_eq!(found.claim_named(name), None, "{name}");
    }
}

#[test]
fn all_labels() {
    let payload = hex(PAYLOAD);
    let whole = read(&payload).item().expect("a map");
    assert_eq!(whole.bytes(), payload);
    let labels: Vec<_> = whole.items().step_by(2).map(|it| it.as_int()).collect();
    let numbers = [4, 9, 10, 256, -70_000, i64::MIN.into(), i64::MAX.into()];
    let wanted: Vec<_> = numbers.map(Some).into_iter().chain([None, None]).collect();
    assert_eq!(labels, wanted);
}

/// What an item is that is the claim 2500.
fn of_item<T>(bytes: &str, get: impl Fn(Item<'_>) -> T) -> T {
    let payload = hex(&format!("a11909c4{bytes}"));
    let item = read(&payload).claim(2500).expect("the claim is there");
    get(item)
}

#[test]
fn examples_of_the_standard() {
    let int = |bytes| of_item(bytes, |it| it.as_int());
    assert_eq!(int("1bffffffffffffffff"), Some(18_446_744_073_709_551_615));
    assert_eq!(int("3bffffffffffffffff"), Some(-18_446_744_073_709_551_616));
    assert_eq!((int("3863"), int("40")), (Some(-100), None));
    let float = |bytes| of_item(bytes, |it| it.as_float());
    assert_eq!(float("f97bff"), Some(65504.0));
    assert_eq!(float("f90001"), Some(5.960_464_477_539_063e-8));
    assert_eq!(float("f9c400"), Some(-4.0));
    assert_eq!(float("fa47c35000"), Some(100_000.0));
    assert_eq!(float("fb3ff199999999999a"), Some(1.1));
    assert_eq!(
        (float("f9fc00"), float("f4")),
        (Some(f64::NEG_INFINITY), None)
    );
    assert!(float("f97e00").is_some_and(f64::is_nan));
    let simple = |bytes| of_item(bytes, |it| (it.simple(), it.as_bool()));
    assert_eq!(simple("f4"), (Some(20), Some(false)));
    assert_eq!(
        (simple("f8ff"), simple("f97e00")),
        ((Some(255), None), (None, None))
    );
    let tagged = of_item("d818456449455446", |it| {
        (it.tag(), it.items().next().map(|it| it.bytes().to_vec()))
    });
    assert_eq!(tagged, (Some(24), Some(hex("456449455446"))));
    assert_eq!(
        of_item("62c3bc", |it| it.as_text().map(str::to_owned)),
        Some("\u{fc}".to_owned())
    );
    assert_eq!(of_item("61ff", |it| it.as_text().map(str::to_owned)), None);
}

/// The message of `bindings/items.json`.
const MESSAGE: &str = "d1845840a6010504476b6579206f6e65036f6170706c69636174696f6e2f6377741821824530030201014230003a00011170a1616101676d6164652062796563626f7232a30543010203676d6164652061741a6929c7001822822f5820000000000000000000000000000000000000000000000000000000000000000042686958200e644bce60d9dc789073e2d57c0c6b4705a2c20e241d88f6e6882499dc6990d0";

#[test]
fn parameters_of_each_bucket() {
    let message = hex(MESSAGE);
    let get = |bucket, label| parameter(&message, Wanted::Tagged, bucket, label);
    let protected = |label| get(Bucket::Protected, label);
    let unprotected = |label| get(Bucket::Unprotected, label);
    assert_eq!(protected(Label::ALG).and_then(|it| it.as_int()), Some(5));
    let kid = protected(Label::KID).and_then(|it| it.as_bytes());
    assert_eq!(kid, Some(b"key one".as_slice()));
    let content_type = protected(Label::CONTENT_TYPE).and_then(|it| it.as_text());
    assert_eq!(content_type, Some("application/cwt"));
    assert_eq!(
        protected(Label::X5CHAIN).map(|it| it.items().count()),
        Some(2)
    );
    assert!(protected(Label::Int(-70_001)).is_some_and(|it| it.is_map()));
    let made_by = protected(Label::Text("made by")).and_then(|it| it.as_text());
    assert_eq!(made_by, Some("cbor2"));
    let iv = unprotected(Label::IV).and_then(|it| it.as_bytes());
    assert_eq!(iv, Some(b"\x01\x02\x03".as_slice()));
    let made_at = unprotected(Label::Text("made at")).and_then(|it| it.as_int());
    assert_eq!(made_at, Some(1_764_345_600));
    assert!(unprotected(Label::X5T).is_some_and(|it| it.is_array()));
    for label in [
        Label::IV,
        Label::X5T,
        Label::Text("made at"),
        Label::CRIT,
        Label::Text("made"),
    ] {
        assert_eq!(protected(label), None, "{label:?}");
    }
    for label in [
        Label::ALG,
        Label::KID,
        Label::X5CHAIN,
        Label::Text("made by"),
        Label::PARTIAL_IV,
    ] {
        assert_eq!(unprotected(label), None, "{label:?}");
    }
}

#[test]
fn parameters_of_a_large_header() {
    let message = hex(MESSAGE);
    let kid = Large::parameter(&message, Wanted::Mac0, Bucket::Protected, Label::KID);
    assert_eq!(kid.map(|it| (it.place(), it.bytes().len())), Some((8, 8)));
    let untagged = Large::parameter(&message[1..], Wanted::Tagged, Bucket::Protected, Label::KID);
    assert_eq!(untagged, None);
}

#[test]
fn parameters_of_a_message_in_pieces() {
    let (keys, message) = (hex(crate::JEFE), hex(MESSAGE));
    let mut block = cose::VerifierBlock::default();
    let mut verifier: Verifier =
        Verifier::open(&mut block, &keys, &Options::default()).expect("it is open");
    let mut room = [0; 1_024];
    let before = verifier.parameter(Bucket::Protected, Label::KID, &mut room);
    assert_eq!(before, Ok(None));
    for byte in message.chunks(1) {
        let _fed = verifier.feed(byte).expect("it isn't refused");
    }
    verifier.verdict(|_| false).expect("it is authentic");
    let kid = verifier.parameter(Bucket::Protected, Label::KID, &mut room);
    let kid = kid.expect("there is room").and_then(|it| it.as_bytes());
    assert_eq!(kid, Some(b"key one".as_slice()));
    let other = verifier.parameter(Bucket::Unprotected, Label::KID, &mut room);
    assert_eq!(other, Ok(None));
    let made_at = verifier.parameter(Bucket::Unprotected, Label::Text("made at"), &mut room);
    let made_at = made_at.expect("there is room").and_then(|it| it.as_int());
    assert_eq!(made_at, Some(1_764_345_600));
    let short = verifier.parameter(Bucket::Protected, Label::KID, &mut room[..7]);
    assert_eq!(short, Err(8));
}
