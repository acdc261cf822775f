//! Messages that are signed by `EdDSA`.

use cose::{verify_eddsa, verify_eddsa_detached, EddsaCurve, EddsaInput, Error, Options, Reason};

use crate::hex;

/// A key on Ed25519, with an identifier, and a message of `hi` that names it.
fn key_and_message(payload: &str) -> (Vec<u8>, Vec<u8>) {
    let keys = hex(&format!("a401010241612006215820{}", "05".repeat(32)));
    let message = hex(&format!(
        "d28443a10132a1044161{payload}5840{}",
        "07".repeat(64)
    ));
    (keys, message)
}

#[test]
fn asks_what_is_signed() {
    let (keys, message) = key_and_message("426869");
    let options = Options {
        aad: b"aad",
        ..Options::default()
    };
    let mut asked = 0;
    let payload = verify_eddsa(&keys, &options, &message, |input| {
        asked += 1;
        assert_eq!((input.alg, input.curve), (-19, EddsaCurve::Ed25519));
        assert_eq!((input.kid, input.x), (Some(&b"a"[..]), &[5; 32][..]));
        assert_eq!(input.signature, [7; 64]);
        let structure = hex("846a5369676e61747572653143a101324361616442");
        assert_eq!(input.structure().concat(), [&structure[..], b"hi"].concat());
        true
    });
    assert_eq!((payload, asked), (Ok(&b"hi"[..]), 1));
}

#[test]
fn refuses_a_bad_signature_at_its_head() {
    let (keys, message) = key_and_message("426869");
    let bad = |_: &EddsaInput| false;
    let error = verify_eddsa(&keys, &Options::default(), &message, bad).unwrap_err();
    let place = message.len() as u64 - 66;
    assert_eq!(
        (error.reason(), error.place()),
        (Some(Reason::BadAuth), Some(place))
    );
}

#[test]
fn takes_a_detached_payload() {
    let (keys, message) = key_and_message("f6");
    let payload = b"elsewhere";
    let found = verify_eddsa_detached(&keys, &Options::default(), &message, payload, |input| {
        input.structure()[6] == payload
    });
    assert_eq!(found, Ok(&payload[..]));
    let (_, attached) = key_and_message("426869");
    let never = |_: &EddsaInput| -> bool { panic!("a message that is refused before") };
    let error = verify_eddsa_detached(&keys, &Options::default(), &attached, payload, never);
    assert_eq!(error.unwrap_err().reason(), Some(Reason::Attached));
}

#[test]
fn asks_nothing_of_what_is_refused_before() {
    let (keys, message) = key_and_message("426869");
    let never = |_: &EddsaInput| -> bool { panic!("a message that is refused before") };
    let short = &message[..message.len() - 1];
    let error = verify_eddsa(&keys, &Options::default(), short, never).unwrap_err();
    assert_eq!(error.reason(), Some(Reason::Truncated));
    let longer = [&message[..], b"\0"].concat();
    let error = verify_eddsa(&keys, &Options::default(), &longer, never).unwrap_err();
    assert_eq!(error.reason(), Some(Reason::Trailing));
    let error = verify_eddsa(b"\x80", &Options::default(), &message, never).unwrap_err();
    assert!(matches!(error, Error::Keys(_)));
}
