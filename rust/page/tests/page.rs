//! The parts of the program page: sums and digits against known ones, scripts put
//! together and run where node is there, places filled, samples listed.

use std::path::Path;
use std::process::Command;

use page::{base64, bundled, filled, listed, sha256};

fn hex(bytes: &[u8]) -> String {
    bytes.iter().map(|byte| format!("{byte:02x}")).collect()
}

#[test]
fn sums_that_are_known() {
    let cases: [(&[u8], &str); 3] = [
        (
            b"",
            "e3b0c44298fc1c149afbf4c8996fb92427ae41e4649b934ca495991b7852b855",
        ),
        (
            b"abc",
            "ba7816bf8f01cfea414140de5dae2223b00361a396177a9cb410ff61f20015ad",
        ),
        (
            b"abcdbcdecdefdefgefghfghighijhijkijkljklmklmnlmnomnopnopq",
            "248d6a61d20638b8e5c026930c3e6039a33ce45964ff2167f6ecedd419db06c1",
        ),
    ];
    for (bytes, sum) in cases {
        assert_eq!(hex(&sha256(bytes)), sum);
    }
    let many = hex(&sha256(&vec![b'a'; 1_000_000]));
    assert_eq!(
        many,
        "cdc76e5c9914fb9281a1c7e284d73e67f1809a48a497200e046d39ccc7112cd0"
    );
}

#[test]
fn digits_that_are_known() {
    for (bytes, digits) in [
        ("", ""),
        ("f", "Zg=="),
        ("fo", "Zm8="),
        ("foo", "Zm9v"),
        ("foobar", "Zm9vYmFy"),
    ] {
        assert_eq!(base64(bytes.as_bytes()), digits);
    }
    assert_eq!(base64(&[255, 239, 0]), "/+8A");
}

#[test]
fn places_and_parts() {
    let parts = [("a", "1{{b}}".to_owned()), ("b", "2".to_owned())];
    assert_eq!(
        filled("<{{a}}|{{b}}|{{a}}>", &parts),
        Ok("<1{{b}}|2|1{{b}}>".to_owned())
    );
    assert_eq!(filled("{{a}}", &parts), Err("'b' has no place".to_owned()));
    assert_eq!(
        filled("{{a}}{{b}}{{c}}", &parts),
        Err("there is no part 'c'".to_owned())
    );
    assert!(filled("{{a", &parts).is_err());
}

/// A module's text by its name.
fn read(modules: &'static [(&str, &str)]) -> impl Fn(&str) -> Result<String, String> {
    move |name| {
        let found = modules.iter().find(|(known, _)| *known == name);
        found
            .map(|(_, text)| (*text).to_owned())
            .ok_or(format!("no {name}"))
    }
}

#[test]
fn modules_in_their_order() {
    // both have a name of their own that the other one has too
    let modules: &[(&str, &str)] = &[
        ("main.mjs", "import { twice as double } from './a.mjs';\nimport { one } from './b.mjs';\nconst hidden = 5;\nconsole.log(double(one) + hidden);"),
        ("a.mjs", "import { one } from './b.mjs';\nconst hidden = 2 * one;\nexport function twice(number) {\n  return hidden * number;\n}"),
        ("b.mjs", "const hidden = 1;\nexport const one = hidden;\nexport class Unused {}"),
    ];
    let script = bundled("main.mjs", &read(modules)).expect("a plain form");
    let place = |text: &str| script.find(text).expect(text);
    assert!(
        place("from_b_mjs = ") < place("from_a_mjs = ")
            && place("from_a_mjs = ") < place("from_main_mjs = ")
    );
    assert_eq!(script.matches("from_b_mjs = ").count(), 1);
    match Command::new("node").args(["-e", &script]).output() {
        Ok(run) => assert_eq!(String::from_utf8_lossy(&run.stdout), "7\n"),
        Err(problem) => println!("the script was not run: install nodejs ({problem})"),
    }
}

#[test]
fn modules_that_cannot_be_put_together() {
    let cases: [(&'static [(&str, &str)], &str); 4] = [
        (
            &[
                ("main.mjs", "import { a } from './a.mjs';"),
                ("a.mjs", "import { b } from './main.mjs';"),
            ],
            "main.mjs imports itself",
        ),
        (
            &[("main.mjs", "import a from './a.mjs';")],
            "this form is not known",
        ),
        (
            &[("main.mjs", "export default 1;")],
            "this form is not known",
        ),
        (
            &[("main.mjs", "import { a } from './lost.mjs';")],
            "no lost.mjs",
        ),
    ];
    for (modules, words) in cases {
        let problem = bundled("main.mjs", &read(modules)).expect_err(words);
        assert!(problem.contains(words), "{problem}");
    }
}

#[test]
fn all_samples_are_listed() {
    let samples = Path::new(env!("CARGO_MANIFEST_DIR")).join("../../samples");
    let told = listed(&samples).expect("samples");
    assert!(!told.contains('<'));
    let lines: Vec<&str> = told.lines().collect();
    assert!(lines[1].starts_with(
        "{\"name\": \"district\", \"group\": \"There is a plan\", \"text\": \"# a district"
    ));
    let entries = samples.read_dir().expect("a folder").flatten();
    let rosters = entries.filter(|entry| {
        entry
            .path()
            .extension()
            .is_some_and(|ending| ending == "roster")
    });
    assert_eq!(lines.len(), rosters.count() + 2);
    for (name, group) in [
        ("crossed", "There is no plan"),
        ("cut-short", "Files that are refused"),
    ] {
        assert!(
            told.contains(&format!("\"name\": \"{name}\", \"group\": \"{group}\"")),
            "{name}"
        );
    }
}
