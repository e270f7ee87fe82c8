//! A page for a browser, for whoever audits a night: it holds the bytes of a sheet and of a slip, and a script that checks
//! them and shows what it finds. Nothing is read or judged here, so that any bytes make a page, and the page says what is
//! wrong with them.

use std::io;

use crate::read_file;

const PAGE: &str = include_str!("../../../page/night.html");
const CHECK: &str = include_str!("../../../page/check.mjs");
const PICTURE: &str = include_str!("../../../page/picture.mjs");
const SHOW: &str = include_str!("../../../page/show.mjs");

/// The letters of base64, by their value.
const LETTERS: &[u8; 64] = b"ABCDEFGHIJKLMNOPQRSTUVWXYZabcdefghijklmnopqrstuvwxyz0123456789+/";

/// Three bytes make four letters, and a hundred letters a line.
fn base64(bytes: &[u8]) -> String {
    let mut text = String::new();
    for line in bytes.chunks(75) {
        for three in line.chunks(3) {
            let number = (0..3).fold(0, |number, k| number << 8 | usize::from(*three.get(k).unwrap_or(&0)));
            let letter = |k: usize| char::from(LETTERS[number >> (18 - 6 * k) & 63]);
            text.extend((0..4).map(|k| if k <= three.len() { letter(k) } else { '=' }));
        }
        text.push('\n');
    }
    text
}

/// The page of a sheet and a slip.
///
/// ```
/// let page = paper::page::of(b"a sheet", b"a slip");
/// assert!(page.contains("YSBzaGVldA==") && page.contains("YSBzbGlw"));
/// ```
pub fn of(sheet: &[u8], slip: &[u8]) -> String {
    let (sheet, slip) = (base64(sheet), base64(slip));
    let parts = [("CHECK", CHECK), ("PICTURE", PICTURE), ("SHOW", SHOW), ("SHEET", &sheet), ("SLIP", &slip)];
    parts.iter().fold(String::from(PAGE), |page, (name, part)| page.replacen(&format!("@@{name}@@"), part, 1))
}

/// The page of the sheet and the slip in two files. Of a longer file than the longest sheet one byte more is taken, which is
/// enough for the page to see it.
pub fn of_files(sheet: &str, slip: &str) -> io::Result<String> {
    Ok(of(&read_file(sheet)?, &read_file(slip)?))
}
