//! The project's own header is read whole, and laid out as a compiler does it.

use std::path::Path;

use targets::describe::{in_one_form, json, naming};
use targets::header::{Header, Parameter, Type};

fn header() -> Header {
    let file = Path::new(env!("CARGO_MANIFEST_DIR")).join("../../include/crew.h");
    let text = std::fs::read_to_string(file).expect("the header");
    Header::read(&text).expect("all of it is known")
}

#[test]
fn structs_are_laid_out_as_by_the_compiler() {
    let header = header();
    let desk = header.structure("crew_desk").expect("the desk");
    assert_eq!((desk.size, desk.align), (4_688, 8));
    let offsets: Vec<usize> = desk.fields.iter().map(|field| field.offset).collect();
    assert_eq!(offsets, [0, 8, 4_272, 4_280, 4_480, 4_488]);
    let found = header.structure("crew_desk_found").expect("an answer");
    assert_eq!(found.size, 4_688 + 40);
}

#[test]
fn calls_have_their_parameters() {
    let header = header();
    let call = |name: &str| {
        let mut calls = header.calls.iter();
        calls.find(|call| call.name == name).expect("a call")
    };
    let join = call("crew_join");
    assert_eq!(join.answer, Type::Struct("crew_desk_found".to_owned()));
    assert_eq!(join.parameters[0], Parameter::Desk);
    assert_eq!(join.parameters[1], Parameter::Number("quota".to_owned()));
    let list = Parameter::Slice {
        name: "list".to_owned(),
        of: Type::U8,
        written: false,
    };
    assert_eq!(join.parameters[2], list);
    let diary = Parameter::Slice {
        name: "diary".to_owned(),
        of: Type::Struct("crew_step".to_owned()),
        written: true,
    };
    assert_eq!(join.parameters[3], diary);
    assert_eq!(call("crew_open").parameters, []);
    assert!(header
        .calls
        .iter()
        .all(|call| !call.name.starts_with("crew_desk_")));
}

#[test]
fn every_refusal_has_its_words() {
    let header = header();
    let named = header.constants.iter();
    let named = named.filter(|(name, _)| name.starts_with("CREW_REFUSED_"));
    let texts = header.texts.iter().map(|(name, _)| name);
    assert!(named.map(|(name, _)| name).eq(texts));
}

#[test]
fn every_call_is_described() {
    let header = header();
    let [json, form, naming] = [json, in_one_form, naming].map(|tell| tell(&header));
    for call in &header.calls {
        assert!(
            json.contains(&format!("\"{}\": {{\"answer\"", call.name)),
            "{call:?}"
        );
        assert!(form.contains(&format!(" {}(", call.name)), "{call:?}");
        assert!(
            naming.contains(&format!("(void *){}", call.name)),
            "{call:?}"
        );
    }
}

#[test]
fn what_is_not_known_is_an_error() {
    for text in [
        "int crew_group(uint8_t number);",
        "uint8_t crew_read(const uint8_t *file);",
        "uint8_t crew_read(const uint8_t *file, size_t other_len);",
        "struct crew_desk { uint8_t bytes[OTHER]; };",
        "struct crew_desk { struct crew_other other; };",
        "enum { CREW_A, CREW_B };",
        "uint8_t crew_read(size_t length);",
        "static inline int open(void) {",
    ] {
        assert!(Header::read(text).is_err(), "{text}");
    }
}
