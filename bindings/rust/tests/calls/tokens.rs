//! Tokens: rows of `rows/tokens.json` and `rows/claims.json`, by their numbers.

use crate::{hex, JEFE};
use cose::{claims, verify_cwt, Confirmation, Curve, Error, Policy, PublicKey, Reason, Refusal, Y};

/// The claims of RFC 8392 appendix A.1 under the key `Jefe` (`rows/tokens.json`, test 1).
const TOKEN: &str = "d18443a10105a05850a70175636f61703a2f2f61732e6578616d706c652e636f6d02656572696b77037818636f61703a2f2f6c696768742e6578616d706c652e636f6d041a5612aeb0051a5610d9f0061a5610d9f007420b715820a15d56d6586b2c7402fc5df16ab87623781e3bfade70e01a906cb74bfa31c2ae";

const FREE: Policy<'static> = Policy {
    now: i64::MIN,
    leeway: u32::MAX,
    audience: None,
};

fn policy(now: i64) -> Policy<'static> {
    Policy {
        now,
        leeway: 0,
        audience: Some("coap://light.example.com"),
    }
}

#[test]
fn an_admitted_token() {
    let keys = hex(JEFE);
    for token in [hex(TOKEN), hex(&format!("d83d{TOKEN}"))] {
        let found = verify_cwt(&keys, b"", &policy(1_444_064_943), &token).expect("it is admitted");
        assert_eq!(
            (found.iss, found.sub),
            (Some("coap://as.example.com"), Some("erikw"))
        );
        let dates = (found.exp, found.nbf, found.iat);
        assert_eq!(
            dates,
            (
                Some(1_444_064_944),
                Some(1_443_944_944),
                Some(1_443_944_944)
            )
        );
        assert_eq!((found.cti, found.cnf), (Some(b"\x0b\x71".as_slice()), None));
        assert!(found.audiences().eq(["coap://light.example.com"]));
        assert_eq!(found.payload().len(), 80);
    }
}

#[test]
fn refused_tokens() {
    let (keys, token) = (hex(JEFE), hex(TOKEN));
    let refused = |policy: &Policy| verify_cwt(&keys, b"", policy, &token).unwrap_err();
    let claims = |reason, place| Error::Claims(Refusal { reason, place });
    assert_eq!(refused(&policy(1_444_064_944)), claims(Reason::Expired, 59));
    assert_eq!(refused(&policy(1_443_944_943)), claims(Reason::NotYet, 65));
    let other = Policy {
        audience: Some("coap://light"),
        ..policy(1_444_064_943)
    };
    assert_eq!(refused(&other), claims(Reason::WrongAudience, 32));
    let message = |reason, place| Error::Message(Refusal { reason, place });
    let error = verify_cwt(&keys, b"x", &policy(1_444_064_943), &token).unwrap_err();
    assert_eq!(error, message(Reason::BadAuth, 89));
    let longer = hex(&format!("{TOKEN}00"));
    let error = verify_cwt(&keys, b"", &policy(1_444_064_943), &longer).unwrap_err();
    assert_eq!(error, message(Reason::Trailing, 123));
}

#[test]
fn a_signed_token() {
    let keys = include_bytes!("../../../../examples/sign1_key.cbor");
    let token = include_bytes!("../../../../examples/sign1.cbor");
    let error = verify_cwt(keys, b"", &FREE, token).unwrap_err();
    assert_eq!(error, Error::Signed);
}

#[test]
fn audiences() {
    for (payload, wanted) in [
        ("a1038261616162", vec!["a", "b"]),          // 170
        ("a10383626162616160", vec!["ab", "a", ""]), // 171
        ("a0", vec![]),
    ] {
        let payload = hex(payload);
        let found = claims(&payload, &FREE).expect("they are admitted");
        assert_eq!(found.audiences().collect::<Vec<_>>(), wanted);
    }
    let payload = hex("a1038261616162"); // 293
    for (name, is_admitted) in [("b", true), ("c", false)] {
        let policy = Policy {
            audience: Some(name),
            ..FREE
        };
        assert_eq!(claims(&payload, &policy).is_ok(), is_admitted);
    }
}

#[test]
fn dates_before_1970() {
    for (payload, wanted) in [
        ("a10420", -1),                                       // 175
        ("a1043b7fffffffffffffff", i128::from(i64::MIN)),     // 181
        ("a1043b8000000000000000", i128::from(i64::MIN) - 1), // 182
    ] {
        let payload = hex(payload);
        let found = claims(&payload, &FREE).expect("they are admitted");
        assert_eq!(found.exp, Some(wanted));
    }
}

#[test]
fn confirmations() {
    let (seven, nine) = ([7; 32], [9; 32]);
    let key = |y| PublicKey {
        curve: Curve::P256,
        x: &seven,
        y,
    };
    let bytes = "a108a101a401022001215820".to_string() + &"07".repeat(32) + "22";
    let kid = Some(b"1".as_slice());
    let rows = [
        ("a108a0".to_string(), None), // 209
        (
            "a108a1034131".to_string(),
            Some(Confirmation { kid, key: None }),
        ), // 210
        // 213
        (
            format!("{bytes}5820{}", "09".repeat(32)),
            Some(Confirmation {
                kid: None,
                key: Some(key(Y::Bytes(&nine))),
            }),
        ),
        // as 214 and 215
        (
            format!("{bytes}f5"),
            Some(Confirmation {
                kid: None,
                key: Some(key(Y::Odd)),
            }),
        ),
        (
            format!("{bytes}f4"),
            Some(Confirmation {
                kid: None,
                key: Some(key(Y::Even)),
            }),
        ),
    ];
    for (payload, wanted) in rows {
        let payload = hex(&payload);
        assert_eq!(claims(&payload, &FREE).map(|found| found.cnf), Ok(wanted));
    }
    // 219
    let payload = hex(&format!("a108a101a401022003215842{}22f5", "30".repeat(66)));
    let found = claims(&payload, &FREE)
        .expect("they are admitted")
        .cnf
        .and_then(|cnf| cnf.key);
    assert_eq!(
        found.map(|key| (key.curve, key.x.len(), key.y)),
        Some((Curve::P521, 66, Y::Odd))
    );
}
