//! Sheets in pieces: every call of the archive against a plain reading of what is kept between them, to the last
//! byte, and the end against the archive's own answer to the whole.

use std::io::Write;

use bristlefrost::{face, Pieces, Refusal};

use crate::archive::{number_and_place, Met};
use crate::checks::expect;
use crate::nights::Random;
use crate::sheets::{self, Sheet};
use crate::torn;

/// The most bytes that a sheet has.
const MOST: usize = bristlefrost::LONGEST_SHEET;

/// What has been given since the last reset.
#[derive(Clone, Copy, PartialEq, Eq)]
enum Held {
    Pieces,
    Over,
    End,
}

/// What is kept between calls, as the archive left it and as it must be; and the wrapper's own.
struct Link {
    bytes: Box<[u8; MOST]>,
    state: [u64; 2],
    right_bytes: Vec<u8>,
    right_state: [u64; 2],
    held: Held,
    wrapped: Pieces,
}

fn wrapped(answer: Result<(), Refusal>) -> u64 {
    answer.map_or_else(number_and_place, |()| 0)
}

impl Link {
    /// The fresh state, with any bytes in the room for the sheet.
    fn new(random: &mut Random) -> Self {
        let right_bytes: Vec<u8> = (0..MOST).map(|_| random.number() as u8).collect();
        let bytes = right_bytes.clone().into_boxed_slice().try_into().expect("so many");
        Link { bytes, state: [0; 2], right_bytes, right_state: [0; 2], held: Held::Pieces, wrapped: Pieces::new() }
    }

    /// How many bytes have come.
    fn came(&self) -> usize {
        self.right_state[0] as usize
    }

    fn kept(&self) -> Result<(), String> {
        expect("the state kept", &self.state, &self.right_state)?;
        expect("the bytes kept are right", &(self.bytes[..] == self.right_bytes[..]), &true)
    }

    fn piece(&mut self, met: &mut Met, sent: &[u8]) -> Result<u64, String> {
        let came = self.came();
        let code = match self.held {
            Held::Over => 17,
            Held::End => 28,
            Held::Pieces if came + sent.len() > MOST => {
                (self.held, self.right_state[1]) = (Held::Over, 1);
                17
            }
            Held::Pieces => {
                self.right_bytes[came..came + sent.len()].copy_from_slice(sent);
                self.right_state[0] += sent.len() as u64;
                0
            }
        };
        expect("piece", &face::piece(&mut self.bytes, &mut self.state, sent), &code)?;
        self.kept()?;
        let again = match self.wrapped.write(sent) {
            Ok(count) => {
                expect("the wrapper's count", &count, &sent.len())?;
                0
            }
            Err(error) => number_and_place(error.downcast().expect("a refusal")),
        };
        expect("the wrapper's piece", &again, &code)?;
        met.note("piece", code);
        Ok(code)
    }

    fn end(&mut self, random: &mut Random, met: &mut Met, room: usize) -> Result<u64, String> {
        let mut found: Vec<u8> = (0..room).map(|_| random.number() as u8).collect();
        let (mut right, mut again) = (found.clone(), found.clone());
        let code = match self.held {
            Held::Over => 17,
            Held::End => 28,
            Held::Pieces => {
                (self.held, self.right_state[1]) = (Held::End, 2);
                face::sheet(&self.right_bytes[..self.came()], &mut right)
            }
        };
        expect("end", &face::end(&self.bytes, &mut self.state, &mut found), &code)?;
        self.kept()?;
        expect("the slip's room is that of the whole", &(found == right), &true)?;
        expect("the wrapper's end", &wrapped(self.wrapped.end_into(&mut again)), &code)?;
        expect("the wrapper's slip is that of the whole", &(again == right), &true)?;
        met.note("end", code);
        Ok(code)
    }

    fn reset(&mut self) -> Result<(), String> {
        (self.held, self.right_state) = (Held::Pieces, [0; 2]);
        expect("reset", &face::reset(&self.bytes, &mut self.state), &0)?;
        self.wrapped.reset();
        self.kept()
    }

    /// The sheet in pieces, its end, some calls after it, and a reset.
    fn sheet(
        &mut self,
        random: &mut Random,
        met: &mut Met,
        sent: &[&[u8]],
        room: usize,
        later: usize,
    ) -> Result<u64, String> {
        for piece in sent {
            self.piece(met, piece)?;
        }
        let code = self.end(random, met, room)?;
        for _ in 0..later {
            if random.below(3) == 0 {
                self.end(random, met, room)?;
            } else {
                let sent = &[b'x'; 3][..random.below(4)];
                self.piece(met, sent)?;
            }
        }
        self.reset()?;
        Ok(code)
    }
}

/// Sheets of side 2, without bars, and with bars and no pairing, cut in two and in three at every place, for their slip's
/// room and for one that is a byte short.
pub fn every(random: &mut Random, met: &mut Met) -> Result<usize, String> {
    let costs = [1, 5, 6, 2];
    let whole = sheets::sheet(b"six", 2, &costs);
    let blocked = Sheet::barred(2, &costs, &[2, 2]).bytes(b"");
    let mut link = Link::new(random);
    let mut cuttings = 0;
    for (whole, room, right) in [(&whole, 56, 0), (&whole, 55, 16), (&blocked, 56, 20), (&blocked, 55, 16)] {
        for second in 0..=whole.len() {
            let two = [&whole[..second], &whole[second..]];
            expect("cut in two", &link.sheet(random, met, &two, room, 2)?, &right)?;
            for first in 0..=second {
                let three = [&whole[..first], &whole[first..second], &whole[second..]];
                expect("cut in three", &link.sheet(random, met, &three, room, 2)?, &right)?;
            }
            cuttings += second + 2;
        }
    }
    Ok(cuttings)
}

/// 65,536 bytes and one more, byte by byte and in two pieces, and calls after 17.
pub fn limits(random: &mut Random, met: &mut Met) -> Result<(), String> {
    let mut link = Link::new(random);
    let longest = sheets::sheet(&vec![b'x'; MOST - 28], 2, &[1, 5, 6, 2]);
    let whole = face::sheet(&longest, &mut [0; 56]);
    expect("the longest sheet has a note that is too long", &whole, &(21 + 256 * 4096))?;
    let bytes: Vec<&[u8]> = longest.chunks(1).collect();
    expect("byte by byte", &link.sheet(random, met, &bytes, 56, 3)?, &whole)?;
    for cut in [0, 1, MOST / 2, MOST - 1, MOST] {
        let two = [&longest[..cut], &longest[cut..], &[]];
        expect("a piece of exactly the rest", &link.sheet(random, met, &two, 56, 3)?, &whole)?;
    }
    for cut in [0, 1, MOST / 2, MOST - 1, MOST] {
        // The rest and one more, which leaves the bytes as they were; then what would have fitted.
        expect("the first part", &link.piece(met, &longest[..cut])?, &0)?;
        let past = vec![b'y'; MOST - cut + 1];
        for sent in [&past[..], &[], &past[..1]] {
            expect("a byte too many, and calls after it", &link.piece(met, sent)?, &17)?;
        }
        expect("the end after 17", &link.end(random, met, 56)?, &17)?;
        expect("a piece after it", &link.piece(met, &[])?, &17)?;
        link.reset()?;
    }
    for (place, &byte) in longest.iter().chain(b"z").enumerate() {
        expect("byte by byte", &link.piece(met, &[byte])?, &(if place < MOST { 0 } else { 17 }))?;
    }
    expect("the end after 17", &link.end(random, met, 56)?, &17)?;
    link.reset()?;
    let small = sheets::sheet(&[], 1, &[7]);
    expect("a sheet after a reset", &link.sheet(random, met, &[&small], 38, 0)?, &0)
}

/// Numbers in the state that no call leaves, and those that one does, are read as they must be.
pub fn states(random: &mut Random, met: &mut Met) -> Result<usize, String> {
    const NUMBERS: [u64; 9] = [0, 1, 2, 3, 28, MOST as u64, MOST as u64 + 1, 1 << 32, u64::MAX];
    let mut link = Link::new(random);
    for came in NUMBERS {
        for mark in NUMBERS {
            for call in 0..3 {
                link.state = [came, mark];
                link.right_state = link.state;
                link.held = match mark {
                    _ if came > MOST as u64 => Held::Over,
                    0 => Held::Pieces,
                    2 => Held::End,
                    _ => Held::Over,
                };
                // The wrapper's own state cannot be set: its answers are those of a state that says the same.
                link.wrapped.reset();
                match link.held {
                    Held::Pieces => {
                        link.wrapped.piece(&link.right_bytes[..came as usize]).map_err(|r| r.to_string())?
                    }
                    Held::Over => drop(link.wrapped.piece(&vec![0; MOST + 1])),
                    Held::End => drop(link.wrapped.end_into(&mut [])),
                }
                match call {
                    0 => drop(link.piece(met, &[])?),
                    1 => drop(link.piece(met, b"abc")?),
                    _ => drop(link.end(random, met, 40)?),
                }
            }
        }
    }
    Ok(3 * NUMBERS.len() * NUMBERS.len())
}

/// Random sheets, most of them damaged, in random pieces, one after the other on one state.
pub fn random(random: &mut Random, met: &mut Met, count: u64) -> Result<(), String> {
    let mut link = Link::new(random);
    for _ in 0..count {
        let (whole, room) = torn::sheet(random);
        let mut places: Vec<usize> = (0..random.below(9)).map(|_| random.below(whole.len() + 1)).collect();
        places.sort_unstable();
        let mut from = 0;
        let mut sent = Vec::new();
        for to in places.into_iter().chain([whole.len()]) {
            sent.push(&whole[from..to]);
            from = to;
        }
        let later = random.below(4);
        let code = link.sheet(random, met, &sent, room, later).map_err(|failure| {
            let lengths: Vec<usize> = sent.iter().map(|piece| piece.len()).collect();
            format!("{failure}\npieces of {lengths:?} bytes, slip room {room}")
        })?;
        expect("the end and the whole", &code, &face::sheet(&whole, &mut vec![0; room]))?;
    }
    Ok(())
}
