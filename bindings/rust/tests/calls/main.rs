//! Calls the library through the crate.

mod adapter;
mod eddsa;
mod items;
mod json;
mod key_choice;
mod messages;
mod parameters;
mod pieces;
mod reasons;
mod signing;
mod sizes;
mod stated;
mod terms_table;
mod threads;
mod tokens;
mod under_tables;

/// The bytes of hexadecimal digits.
fn hex(digits: &str) -> Vec<u8> {
    assert_eq!(digits.len() % 2, 0);
    (0..digits.len())
        .step_by(2)
        .map(|at| u8::from_str_radix(&digits[at..at + 2], 16).expect("hexadecimal"))
        .collect()
}

/// A symmetric key of the bytes `Jefe`.
const JEFE: &str = "a2010420444a656665";

/// The `COSE_Mac0` of `hi` under it (`rows/messages.json`, test 42; `examples/mac0.cbor`).
const HI: &str =
    "d18443a10105a042686958207d81e964aaee5fbd8adfb3f533657a9ef9f782f04b91877b6004272a0352f960";
