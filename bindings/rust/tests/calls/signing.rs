//! `COSE_Sign1` messages that are made.

use std::sync::RwLock;

use crate::hex;
use cose::{
    Block, Error, Sign1Maker, SignError, SignatureAlg, Signing, DIGEST_ROOM, HEAD_ROOM,
    SIGNATURE_ROOM,
};

const ES256: Signing = Signing {
    alg: SignatureAlg::Es256,
    kid: b"11",
    aad: b"",
};

/// RFC 9052 appendix C.2.1 (`rows/signed.json`, test 1).
const PAYLOAD: &[u8] = b"This is the content.";
const SIGNATURE: &str = "8eb33e4ca31d1c465ab05aac34cc6b23d58fef5c083106c4d25a91aef0b0117e\
                         2af9a291aa32e14ab834dc56ed2a223444547e01f11d3b0916e5a4c345cacb36";
const DIGEST: &str = "4c3363b499e1dac4aafc8d6923f1ca6577dfda80da24e54fb924249064827c88";

#[test]
fn the_message_of_the_rfc() {
    let (mut block, mut head, mut tail) = (Block::new(), [0; HEAD_ROOM], [0; SIGNATURE_ROOM]);
    let (mut maker, head) =
        Sign1Maker::begin(&mut block, &ES256, 20, &mut head).expect("nothing is too long");
    assert_eq!(
        (maker.piece(&PAYLOAD[..7]), maker.piece(&PAYLOAD[7..])),
        (7, 13)
    );
    let sign = |digest: &[u8]| {
        assert_eq!(digest, hex(DIGEST));
        Ok::<_, ()>(hex(SIGNATURE))
    };
    let tail = maker.end_by(&sign, &mut tail).expect("it is whole");
    let message = [head, PAYLOAD, tail].concat();
    let wanted = "d28443a10126a10442313154546869732069732074686520636f6e74656e742e5840";
    assert_eq!(message, [hex(wanted), hex(SIGNATURE)].concat());
}

#[test]
fn lengths_of_each_algorithm() {
    for (alg, digest, signature) in [
        (SignatureAlg::Es256, 32, 64),
        (SignatureAlg::Es384, 48, 96),
        (SignatureAlg::Es512, 64, 132),
        (SignatureAlg::Esp256, 32, 64),
        (SignatureAlg::Esp384, 48, 96),
        (SignatureAlg::Esp512, 64, 132),
    ] {
        let signing = Signing { alg, ..ES256 };
        let (mut block, mut head, mut room) = (Block::new(), [0; HEAD_ROOM], [0; DIGEST_ROOM]);
        let (mut maker, _) =
            Sign1Maker::begin(&mut block, &signing, 0, &mut head).expect("nothing is too long");
        assert_eq!(maker.digest(&mut room).map(<[u8]>::len), Ok(digest));
        let mut tail = [0; SIGNATURE_ROOM];
        for wrong in [0, signature - 1, signature + 1] {
            assert_eq!(
                maker.end(&vec![0; wrong], &mut tail),
                Err(Error::BadArgument)
            );
        }
        let refused = |_: &[u8]| Err::<[u8; 64], _>("no key");
        assert_eq!(
            maker.end_by(&refused, &mut tail),
            Err(SignError::Signer("no key"))
        );
        let made = maker.end(&vec![0; signature], &mut tail).map(<[u8]>::len);
        assert_eq!(made, Ok(signature + 2));
    }
}

#[test]
fn messages_that_are_not_signed() {
    let begun = |signing: &Signing, length| {
        let (mut block, mut head) = (Block::new(), [0; HEAD_ROOM]);
        Sign1Maker::begin(&mut block, signing, length, &mut head).map(|_| ())
    };
    assert_eq!(begun(&ES256, (1 << 56) - 1), Ok(()));
    assert_eq!(begun(&ES256, 1 << 56), Err(Error::BadArgument));
    let (kid, aad) = ([0; 256], vec![0; 65_536]);
    assert_eq!(
        begun(
            &Signing {
                kid: &kid[1..],
                ..ES256
            },
            2
        ),
        Ok(())
    );
    assert_eq!(
        begun(&Signing { kid: &kid, ..ES256 }, 2),
        Err(Error::BadArgument)
    );
    assert_eq!(
        begun(
            &Signing {
                aad: &aad[1..],
                ..ES256
            },
            2
        ),
        Ok(())
    );
    assert_eq!(
        begun(&Signing { aad: &aad, ..ES256 }, 2),
        Err(Error::AadTooLong)
    );
    let (mut block, mut head, mut tail) = (Block::new(), [0; HEAD_ROOM], [0; SIGNATURE_ROOM]);
    let (mut maker, _) =
        Sign1Maker::begin(&mut block, &ES256, 2, &mut head).expect("nothing is too long");
    assert_eq!((maker.piece(b"h"), maker.piece(b"")), (1, 0));
    assert_eq!(maker.digest(&mut [0; DIGEST_ROOM]), Err(Error::Incomplete));
    assert_eq!(maker.end(&[0; 64], &mut tail), Err(Error::Incomplete));
    assert_eq!(maker.piece(b"i!"), 1);
    assert!(maker.end(&[0; 64], &mut tail).is_ok());
}

/// Each piece of four threads is hashed once.
#[test]
fn threads_share_a_signer() {
    let (mut block, mut head) = (Block::new(), [0; HEAD_ROOM]);
    let (maker, _) =
        Sign1Maker::begin(&mut block, &ES256, 400, &mut head).expect("nothing is too long");
    let maker = RwLock::new(maker);
    std::thread::scope(|scope| {
        for _ in 0..4 {
            scope.spawn(|| {
                for _ in 0..10 {
                    let used = maker.write().expect("no thread panics").piece(&[0; 10]);
                    assert_eq!(used, 10);
                }
            });
        }
    });
    let mut together = [0; DIGEST_ROOM];
    let mut maker = maker.into_inner().expect("no thread panics");
    let together = maker.digest(&mut together).expect("it is whole");
    let (mut block, mut head, mut alone) = (Block::new(), [0; HEAD_ROOM], [0; DIGEST_ROOM]);
    let (mut maker, _) =
        Sign1Maker::begin(&mut block, &ES256, 400, &mut head).expect("nothing is too long");
    assert_eq!(maker.piece(&[0; 400]), 400);
    assert_eq!(maker.digest(&mut alone), Ok(together));
}
