//! Nights on sheets of each edition, through the archive and the wrapper: the slip's room in full, the sheet's bytes,
//! and slips held against their sheets.

use bristlefrost::{face, Refusal};

use crate::archive::{behind, check_barred, check_oblong, longer, wrapped, Met};
use crate::checks::expect;
use crate::nights::Random;
use crate::rules::Answer;
use crate::sheets::Sheet;
use crate::{matching, opinions, refusals, seconded, torn, K};

/// Hands over a sheet and room for a slip, and compares the slip's room in full.
pub fn sheet(random: &mut Random, bytes: &[u8], room: usize) -> Result<u64, String> {
    let mut found: Vec<u8> = (0..room).map(|_| random.number() as u8).collect();
    let mut right = found.clone();
    let night = refusals::sheet(bytes, room);
    let code = match &night {
        Err(refused) => refusals::code(*refused),
        Ok(night) => {
            let (written, code) = matching::written(night, &matching::settled(night));
            right[..written.len()].copy_from_slice(&written);
            code
        }
    };
    expect("sheet", &face::sheet(bytes, &mut found), &code)?;
    let rows = found.first_chunk().map_or(0, |&rows| u64::from_le_bytes(rows));
    if let (20, Ok(Sheet { n, bars, .. })) = (code, &night) {
        expect("too few columns are allowed to the rows shown", &matching::too_few(*n, bars, rows), &true)?;
    }
    expect("the slip's room", &found, &right).map_err(|failure| {
        if room <= 400 {
            failure
        } else {
            String::from("the slip's room (not shown)")
        }
    })?;
    let again = bristlefrost::sheet_into(bytes, &mut found).map(|()| 0);
    if code == 20 {
        expect("the wrapper's rows", &again, &Err(Refusal::NoPairing { rows }))?;
    }
    expect("the wrapper's sheet", &wrapped(again), &(code, 0))?;
    let read = bristlefrost::Sheet::read(bytes).ok();
    let night = read.as_ref().map(|sheet| Sheet {
        edition: sheet.edition(),
        m: sheet.rows(),
        n: sheet.side(),
        costs: sheet.costs().to_vec(),
        bars: sheet.bars().map_or(vec![0; sheet.rows()], <[u64]>::to_vec),
    });
    expect("the wrapper's reading", &night, &refusals::sheet(bytes, usize::MAX).ok())?;
    expect("what is read is written again", &read.is_none_or(|sheet| sheet.bytes() == bytes), &true)?;
    Ok(code)
}

/// A night with bars on a sheet.
pub fn barred(
    random: &mut Random,
    met: &mut Met,
    n: usize,
    costs: &[i32],
    bars: &[u64],
    settled: &Result<Answer, u64>,
) -> Result<(), String> {
    if let Ok(answer) = settled {
        let (lists, mut longer) = (longer(random, answer), bars.to_vec());
        behind(random, &mut longer, |bits| bits);
        let code = check_barred(n, costs, &lists, &longer)?;
        expect("the answer is accepted", &code, &0)?;
        met.note("check with bars", code);
        let rooms = seconded::rooms(random, n, n);
        let code = seconded::barred(random, n, costs, &lists, &longer, rooms)?;
        expect("a second is told of the answer", &code, &0)?;
        met.note("second with bars", code);
    }
    on_sheet(random, met, &Sheet::barred(n, costs, bars), settled.as_ref().map_err(|&rows| rows))
}

/// A night of fewer rows than columns on a sheet. The answer is that of the square.
pub fn oblong(
    random: &mut Random,
    met: &mut Met,
    m: usize,
    n: usize,
    costs: &[i32],
    answer: &Answer,
) -> Result<(), String> {
    let mut lists = longer(random, answer);
    lists.columns.truncate(m + random.below(n - m + 1));
    lists.row_prices.truncate(m + random.below(n - m + 1));
    let code = check_oblong(m, n, costs, &lists)?;
    expect("the answer is accepted", &code, &0)?;
    met.note("check of fewer rows", code);
    let rooms = seconded::rooms(random, m, n);
    let code = seconded::oblong(random, m, n, costs, &lists, rooms)?;
    expect("a second is told of the answer", &code, &0)?;
    met.note("second of fewer rows", code);
    on_sheet(random, met, &Sheet::oblong(m, n, costs), Ok(answer))
}

/// A night on a sheet with some note, and through the wrapper's sheet and slip: the sheet's bytes, the slip, that the
/// slip is accepted and any other pairing as the checker has it; or that the wrapper makes no sheet with a note that
/// is unfit.
pub fn on_sheet(
    random: &mut Random,
    met: &mut Met,
    night: &Sheet,
    settled: Result<&Answer, u64>,
) -> Result<(), String> {
    let Sheet { edition, m, n, costs, bars } = night;
    let length = random.below(40);
    let note = torn::note(random, length);
    let bytes = night.bytes(&note);
    let room = night.slip_length() + random.below(4);
    met.note("sheet", sheet(random, &bytes, room)?);

    let built = match edition {
        1 => bristlefrost::Sheet::new(*n, costs),
        2 => bristlefrost::Sheet::new(*n, costs).and_then(|sheet| sheet.barred(bars)),
        _ => bristlefrost::Sheet::oblong(*m, *n, costs),
    };
    let built = built.and_then(|sheet| sheet.noted(&note));
    if let Err((21, place)) = refusals::sheet(&bytes, room) {
        let unfit = bristlefrost::Unfit::Note { place: place as usize };
        return expect("the wrapper's sheet with such a note", &built, &Err(unfit));
    }
    let built = built.map_err(|unfit| unfit.to_string())?;
    expect("the wrapper's sheet's bytes", &built.bytes(), &bytes)?;
    let right = settled.map_err(|rows| Refusal::NoPairing { rows }).map(|answer| bristlefrost::Slip {
        edition: *edition,
        columns: answer.columns[..*m].iter().map(|&column| column as u16).collect(),
        row_prices: answer.row_prices[..*m].to_vec(),
        column_prices: answer.column_prices.clone(),
        total: answer.total,
    });
    expect("the wrapper's slip", &bristlefrost::pair(&built), &right)?;
    let Ok(slip) = right else { return Ok(()) };
    let written = slip.bytes().map_err(|unfit| unfit.to_string())?;
    expect("the wrapper's slip is read again", &bristlefrost::Slip::read(&written), &Ok(slip.clone()))?;
    expect("the slip is accepted", &opinions::audit(random, met, &bytes, &written)?, &0)?;
    other_slip(random, met, night, &bytes, slip)
}

/// Slips with another pairing, other prices or another edition, held against the sheet.
fn other_slip(
    random: &mut Random,
    met: &mut Met,
    night: &Sheet,
    sheet: &[u8],
    mut slip: bristlefrost::Slip,
) -> Result<(), String> {
    let Sheet { m, n, .. } = night;
    if random.below(2) == 0 {
        slip.columns = random.permutation(*n)[..*m].iter().map(|&j| j as u16).collect();
    }
    if *n > 0 && random.below(2) == 0 {
        let column = random.below(*n);
        slip.column_prices[column] += random.pick(&[-1, 1, -10 * K, 10 * K]);
        if *m > 0 && random.below(2) == 0 {
            slip.row_prices[random.below(*m)] += random.pick(&[-1, 1]);
            slip.columns[random.below(*m)] = random.below(*n + 1) as u16;
        }
    }
    opinions::audit(random, met, sheet, &slip.bytes().map_err(|unfit| unfit.to_string())?)?;
    slip.edition = slip.edition % 3 + 1;
    // A slip of fewer rows than columns is one of edition 3 alone.
    let Ok(other) = slip.bytes() else { return Ok(()) };
    expect("of another edition", &opinions::audit(random, met, sheet, &other)?, &25)
}
