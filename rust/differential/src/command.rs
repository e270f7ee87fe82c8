//! The command line: numbers with their names, and a word before them where a program takes one.

use std::env;

/// Reads pairs of a name and a number into the places of their names.
pub fn numbers(places: &mut [(&str, &mut u64)]) -> Result<(), String> {
    read(env::args().skip(1), places)
}

/// The word before all names, if there is one; and the pairs after it.
pub fn word_and_numbers(places: &mut [(&str, &mut u64)]) -> Result<Option<String>, String> {
    let mut arguments = env::args().skip(1).peekable();
    let word = arguments.next_if(|word| !word.starts_with("--"));
    read(arguments, places)?;
    Ok(word)
}

fn read(mut arguments: impl Iterator<Item = String>, places: &mut [(&str, &mut u64)]) -> Result<(), String> {
    while let Some(name) = arguments.next() {
        let (_, place) =
            places.iter_mut().find(|(known, _)| *known == name).ok_or_else(|| format!("unknown: {name}"))?;
        let value = arguments.next().and_then(|value| value.parse().ok());
        **place = value.ok_or_else(|| format!("{name} wants a number"))?;
    }
    Ok(())
}
