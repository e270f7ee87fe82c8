//! A sheet that arrives in pieces.

use std::{fmt, io};

use crate::{face, slip_of, Refusal, LONGEST_SHEET, LONGEST_SLIP};

/// A sheet that arrives in pieces of any size, empty ones too, up to [`LONGEST_SHEET`] bytes in all. Its end gives what
/// [`sheet`](crate::sheet) gives for the whole, however it was cut.
///
/// A piece that would pass [`LONGEST_SHEET`] is refused with [`SheetOver`](Refusal::SheetOver), and so is every call
/// after it. After the end, refused or not, every call is refused with [`SheetEnded`](Refusal::SheetEnded). A
/// [`reset`](Pieces::reset) begins anew.
///
/// ```
/// use bristlefrost::{Pieces, Refusal};
///
/// let sheet = [7, 0, 0, 0, 4, 0, 0, 0, 1, 0, 1, 0, 0x4D, 0x54, 0x43, 0x48];
/// let mut pieces = Pieces::new();
/// pieces.piece(&sheet[..5])?;
/// pieces.piece(&[])?;
/// pieces.piece(&sheet[5..])?;
/// assert_eq!(pieces.end(), bristlefrost::sheet(&sheet));
/// assert_eq!(pieces.piece(&[]), Err(Refusal::SheetEnded));
/// assert_eq!(pieces.end(), Err(Refusal::SheetEnded));
///
/// // The same from anything that can be read.
/// pieces.reset();
/// std::io::copy(&mut &sheet[..], &mut pieces).expect("a sheet is not over 65,536 bytes");
/// let mut slip = [0; 38];
/// assert_eq!(pieces.end_into(&mut slip), Ok(()));
///
/// pieces.reset();
/// let refused = std::io::copy(&mut std::io::repeat(0), &mut pieces).unwrap_err();
/// assert_eq!(refused.downcast::<Refusal>().unwrap(), Refusal::SheetOver);
/// assert_eq!(pieces.end(), Err(Refusal::SheetOver));
/// # Ok::<(), Refusal>(())
/// ```
#[derive(Clone)]
pub struct Pieces {
    bytes: Box<[u8; LONGEST_SHEET]>,
    state: [u64; 2],
}

impl Pieces {
    /// The fresh state: no byte has come.
    pub fn new() -> Self {
        let bytes =
            vec![0; LONGEST_SHEET].into_boxed_slice().try_into().expect("as many as the sheet has at most");
        Pieces { bytes, state: [0; 2] }
    }

    /// Takes a piece.
    pub fn piece(&mut self, sent: &[u8]) -> Result<(), Refusal> {
        Refusal::read(face::piece(&mut self.bytes, &mut self.state, sent), 0)
    }

    /// Ends the sheet and answers its slip.
    pub fn end(&mut self) -> Result<Vec<u8>, Refusal> {
        let mut slip = vec![0; LONGEST_SLIP];
        self.end_into(&mut slip)?;
        // Acceptance means that so many bytes have come.
        slip.truncate(slip_of(&self.bytes[..self.state[0] as usize]));
        Ok(slip)
    }

    /// Ends the sheet and writes its slip, as [`sheet_into`](crate::sheet_into) does.
    pub fn end_into(&mut self, slip: &mut [u8]) -> Result<(), Refusal> {
        Refusal::read_sheet(face::end(&self.bytes, &mut self.state, slip), slip)
    }

    /// Back to the fresh state.
    pub fn reset(&mut self) {
        face::reset(&self.bytes, &mut self.state);
    }
}

impl Default for Pieces {
    fn default() -> Self {
        Pieces::new()
    }
}

impl fmt::Debug for Pieces {
    fn fmt(&self, out: &mut fmt::Formatter<'_>) -> fmt::Result {
        out.debug_struct("Pieces").field("state", &self.state).finish_non_exhaustive()
    }
}

/// Each write is a piece, taken whole; an error holds the [`Refusal`].
impl io::Write for Pieces {
    fn write(&mut self, sent: &[u8]) -> io::Result<usize> {
        self.piece(sent).map_err(io::Error::other)?;
        Ok(sent.len())
    }

    fn flush(&mut self) -> io::Result<()> {
        Ok(())
    }
}
