//! Threads that verify under the same tables at once.

use std::sync::Barrier;
use std::thread;

use crate::sizes::fed;
use crate::terms_table::{terms, EXPIRING, KEY};
use crate::{hex, HI};
use cose::{
    Block, Error, KeyTable, NotAdmitted, Options, Policy, Reason, Refusal, Requirements,
    TermsTable, Verifier,
};

/// How often each thread asks about its message and its token.
const TURNS: usize = 500;

/// A message and a token, and what they have where they are good.
struct Case {
    message: Vec<u8>,
    token: Vec<u8>,
    is_good: bool,
}

impl Case {
    fn good() -> Self {
        Case {
            message: hex(HI),
            token: hex(EXPIRING),
            is_good: true,
        }
    }

    /// Both with another last byte, which is that of the tag.
    fn forged() -> Self {
        let mut forged = Case::good();
        for bytes in [&mut forged.message, &mut forged.token] {
            *bytes.last_mut().expect("it isn't empty") ^= 1;
        }
        forged.is_good = false;
        forged
    }

    /// What is found, or the refusal of a tag of 32 bytes.
    fn wanted<T>(&self, found: T, bytes: &[u8]) -> Result<T, Error> {
        let refusal = Refusal {
            reason: Reason::BadAuth,
            place: bytes.len() as u64 - 34,
        };
        self.is_good.then_some(found).ok_or(Error::Message(refusal))
    }

    fn ask_keys(&self, table: &KeyTable<'_>) {
        let verdict = table.verify(&Options::default(), &self.message);
        assert_eq!(
            verdict.map(|it| it.payload_if(|_| false)),
            self.wanted(Some(b"hi".as_slice()), &self.message)
        );
        let policy = Policy {
            now: 1,
            leeway: 0,
            audience: None,
        };
        let claims = table.verify_cwt(b"", &policy, &self.token);
        assert_eq!(claims.map(|it| it.exp), self.wanted(Some(2), &self.token));
    }

    /// A verifier of this thread's, which is fed under the table.
    fn feed(&self, table: &KeyTable<'_>) {
        let mut block = Block::new();
        let mut verifier = Verifier::under_table(&mut block, table, &Options::default())
            .expect("the external data isn't long");
        for length in [self.message.len(), 7] {
            assert_eq!(
                fed(&mut verifier, &self.message, length),
                self.wanted(b"hi".to_vec(), &self.message)
            );
            verifier.reset();
        }
    }

    fn ask_terms(&self, table: &TermsTable<'_>) {
        let verdict = table.authenticate(&self.message);
        assert_eq!(
            verdict.map(|it| it.payload_if(|_| false)),
            self.wanted(Some(b"hi".as_slice()), &self.message)
        );
        let requirements = Requirements {
            now: 1,
            ..Requirements::default()
        };
        let claims = table.admit(&requirements, &self.token);
        assert_eq!(
            claims.map(|it| it.exp),
            self.wanted(Some(2), &self.token)
                .map_err(NotAdmitted::Error)
        );
    }
}

/// Each thread is answered about its own message and its own token, be they good or forged.
#[test]
fn threads_share_tables() {
    let (mut key_block, mut terms_block) = (Block::new(), Block::new());
    let keys = KeyTable::read(&mut key_block, KEY).expect("the key is good");
    let terms = TermsTable::read(&mut terms_block, &terms(KEY)).expect("the key is permitted");
    let cases = [Case::good(), Case::forged(), Case::good(), Case::forged()];
    let start = Barrier::new(cases.len());
    thread::scope(|scope| {
        for case in &cases {
            scope.spawn(|| {
                start.wait();
                for _ in 0..TURNS {
                    case.ask_keys(&keys);
                    case.ask_terms(&terms);
                    case.feed(&keys);
                    case.feed(&terms.keys());
                }
            });
        }
    });
}

/// A verifier under a table, and a table, go to another thread with what they borrow.
#[test]
fn a_table_may_go() {
    let (mut key_block, mut terms_block) = (Block::new(), Block::new());
    let keys = KeyTable::read(&mut key_block, KEY).expect("the key is good");
    let terms = TermsTable::read(&mut terms_block, &terms(KEY)).expect("the key is permitted");
    let mut block = Block::new();
    let mut verifier = Verifier::under_table(&mut block, &keys, &Options::default())
        .expect("the external data isn't long");
    thread::scope(|scope| {
        scope.spawn(move || assert_eq!(fed(&mut verifier, &hex(HI), 7), Ok(b"hi".to_vec())));
        scope.spawn(move || Case::good().ask_keys(&keys));
        scope.spawn(move || Case::forged().ask_terms(&terms));
    });
}
