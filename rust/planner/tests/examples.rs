//! The examples tell what is stored beside them.

use std::error::Error;

// each example is a program of its own, whose main is not called here
#[allow(dead_code)]
#[path = "../examples/desk.rs"]
mod desk;
#[allow(dead_code)]
#[path = "../examples/faced.rs"]
mod faced;
#[allow(dead_code)]
#[path = "../examples/in_the_field.rs"]
mod in_the_field;
#[allow(dead_code)]
#[path = "../examples/session.rs"]
mod session;
#[allow(dead_code)]
#[path = "../examples/sheet.rs"]
mod sheet;
#[allow(dead_code)]
#[path = "../examples/unsettled.rs"]
mod unsettled;

/// What an example tells.
fn told(tell: impl FnOnce(&mut Vec<u8>) -> Result<(), Box<dyn Error>>) -> String {
    let mut text = Vec::new();
    tell(&mut text).expect("no call is refused that the story does not tell");
    String::from_utf8(text).expect("plain text")
}

#[test]
fn a_morning_at_the_desk() {
    assert_eq!(told(desk::tell), include_str!("../examples/desk.out"));
}

#[test]
fn nine_days_in_the_field() {
    assert_eq!(
        told(in_the_field::tell),
        include_str!("../examples/in_the_field.out")
    );
}

#[test]
fn a_sheet_for_the_foreman() {
    assert_eq!(told(sheet::tell), include_str!("../examples/sheet.out"));
}

#[test]
fn a_session_for_the_page() {
    assert_eq!(told(session::tell), include_str!("../examples/session.out"));
}

#[test]
fn who_faced_whom_at_a_stand() {
    assert_eq!(told(faced::tell), include_str!("../examples/faced.out"));
}

#[test]
fn rankings_not_yet_settled() {
    assert_eq!(
        told(unsettled::tell),
        include_str!("../examples/unsettled.out")
    );
}
