//! The reasons are those of docs/REASONS.md, where the repository is.

use std::fs;

use cose::{Error, Reason, Refusal};

/// The numbers and names of the page's table.
fn listed(page: &str) -> Vec<(u8, String)> {
    page.lines()
        .filter_map(|line| {
            let mut cells = line.strip_prefix('|')?.split('|').map(str::trim);
            let number = cells.next()?.parse().ok()?;
            Some((number, cells.next()?.trim_matches('`').to_string()))
        })
        .collect()
}

#[test]
fn the_page_has_them() {
    let path = concat!(env!("CARGO_MANIFEST_DIR"), "/../../docs/REASONS.md");
    let Ok(page) = fs::read_to_string(path) else {
        return;
    };
    let here: Vec<_> = Reason::ALL
        .iter()
        .map(|reason| (reason.number(), reason.name().to_string()))
        .collect();
    assert_eq!(listed(&page), here);
}

#[test]
fn numbers() {
    for reason in Reason::ALL {
        assert_eq!(Reason::from_number(reason.number()), Some(reason));
    }
    assert_eq!(
        (Reason::from_number(0), Reason::from_number(44)),
        (None, None)
    );
}

#[test]
fn texts() {
    let refusal = Refusal {
        reason: Reason::BadAuth,
        place: 10,
    };
    let error: &dyn std::error::Error = &Error::Message(refusal);
    assert_eq!(error.to_string(), "the message is refused: BadAuth at 10");
    assert_eq!(Error::AadTooLong.refusal(), None);
}
