//! The text samples are packed to the bytes that stand beside them.

use std::fs;
use std::path::Path;

use reference::roster;
use rostertext::{parse, print};

#[test]
fn texts_and_bytes_agree() {
    let folder = Path::new(env!("CARGO_MANIFEST_DIR")).join("../../samples");
    let mut texts = 0;
    for entry in fs::read_dir(folder).expect("the samples") {
        let path = entry.expect("a sample").path();
        if path.extension().is_none_or(|end| end != "txt") {
            continue;
        }
        let text = fs::read_to_string(&path).expect("a text");
        let bytes = fs::read(path.with_extension("roster")).expect("its bytes");
        let parsed = parse(&text).unwrap_or_else(|problem| panic!("{path:?}: {problem}"));
        assert_eq!(roster::write(&parsed), bytes, "{path:?}");
        let read = roster::read(&bytes).expect("accepted");
        assert_eq!(parse(&print(&read)).as_ref(), Ok(&read), "{path:?}");
        texts += 1;
    }
    assert!(texts >= 15, "{texts} texts");
}
