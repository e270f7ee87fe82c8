//! The page holds the bytes that it was made of, the script as it stands in the repository, and nothing from elsewhere.

use std::fs;
use std::path::Path;
use std::process::Command;

fn repository(file: &str) -> String {
    let path = Path::new(env!("CARGO_MANIFEST_DIR")).join("../..").join(file);
    fs::read_to_string(path).expect("a file of the repository")
}

/// What stands between two marks, the first of each.
fn between<'a>(text: &'a str, from: &str, to: &str) -> &'a str {
    let text = &text[text.find(from).expect("the first mark") + from.len()..];
    &text[..text.find(to).expect("the second mark")]
}

/// Base64 read by its definition: six bits a letter, the highest first.
fn unbased(text: &str) -> Vec<u8> {
    let value = |letter: u8| match letter {
        b'A'..=b'Z' => letter - b'A',
        b'a'..=b'z' => letter - b'a' + 26,
        b'0'..=b'9' => letter - b'0' + 52,
        b'+' => 62,
        b'/' => 63,
        _ => panic!("no letter of base64: {letter}"),
    };
    let letters = text.bytes().filter(|letter| !letter.is_ascii_whitespace() && *letter != b'=');
    let bits: Vec<u8> = letters.flat_map(|letter| (0..6).rev().map(move |bit| value(letter) >> bit & 1)).collect();
    bits.chunks_exact(8).map(|eight| eight.iter().fold(0, |byte, bit| byte << 1 | bit)).collect()
}

#[test]
fn a_page_holds_its_bytes() {
    for length in (0..160).chain([1172, 16_447, 65_537]) {
        let sheet: Vec<u8> = (0..length).map(|k| (k * 37 % 256) as u8).collect();
        let slip: Vec<u8> = sheet.iter().rev().map(|byte| byte ^ 0xFF).collect();
        let page = paper::page::of(&sheet, &slip);
        assert_eq!(unbased(between(&page, "<pre id=\"sheet-bytes\">", "</pre>")), sheet);
        assert_eq!(unbased(between(&page, "<pre id=\"slip-bytes\">", "</pre>")), slip);
    }
}

#[test]
fn a_page_holds_the_scripts_as_they_stand() {
    let page = paper::page::of(b"", b"");
    for id in ["check", "picture", "show"] {
        let script = between(&page, &format!("<script type=\"module\" id=\"{id}\">\n"), "</script>");
        assert_eq!(script, repository(&format!("page/{id}.mjs")));
    }
    assert!(!page.contains("@@"));
}

/// No address but that by which the browser knows a drawing, and no word that would fetch one.
#[test]
fn a_page_names_nothing_outside() {
    let page = paper::page::of(b"", b"").replace("http://www.w3.org/2000/svg", "");
    for word in [
        "http:",
        "https:",
        "//www",
        " src=",
        "<link",
        "@import",
        "fetch(",
        "XMLHttpRequest",
        "WebSocket",
        "sendBeacon",
    ] {
        assert!(!page.contains(word), "{word}");
    }
    assert!(page.contains("default-src 'none'"));
}

#[test]
fn the_program_writes_a_page() {
    let program = |names: [&str; 2]| {
        Command::new(env!("CARGO_BIN_EXE_paper")).arg("page").args(names).output().expect("it runs")
    };
    let sheet = concat!(env!("CARGO_MANIFEST_DIR"), "/../../samples/n8.sheet");
    let output = program([sheet, sheet]);
    let bytes = fs::read(sheet).expect("a sample");
    assert!(output.status.success() && output.stdout == paper::page::of(&bytes, &bytes).into_bytes());
    let output = program([sheet, "no such file"]);
    assert_eq!((output.status.code(), output.stdout.len()), (Some(1), 0));
    assert!(output.stderr.starts_with(b"paper: no such file: "));
}
