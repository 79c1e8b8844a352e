use super::{Content, Sheet, SheetRefusal, SHEET_MOST};
use crate::ffi;

/// The place after the field that was written.
fn written(place: ffi::Place) -> Result<usize, SheetRefusal> {
    SheetRefusal::unless(place.refusal, place.offset, || place.offset)
}

/// Writes a word field at a place of a buffer, and gives the place after it. Refused 15 if the field would end past
/// [`SHEET_MOST`] bytes, then 13 if it would end past the buffer; the buffer is then left as it was. What stands in the
/// buffer before is not looked at.
///
/// ```
/// use lampcygnet::sheet::{write_word, SheetRefusal};
/// use lampcygnet::Refusal;
///
/// let mut buffer = [0; 8];
/// assert_eq!(write_word(&mut buffer, 1, 0xE8000049), Ok(8));
/// assert_eq!(buffer, [0, 0x10, 0, 4, 0xE8, 0, 0, 0x49]);
/// assert_eq!(write_word(&mut buffer, 2, 0), Err(SheetRefusal { refusal: Refusal::Room, offset: 0 }));
/// ```
pub fn write_word(out: &mut [u8], place: usize, word: u32) -> Result<usize, SheetRefusal> {
    // Pointer and length are those of a slice that is borrowed alone.
    written(unsafe { ffi::lampcygnet_write_word(out.as_mut_ptr(), out.len(), place, word) })
}

/// Writes a figure field, as [`write_word`] writes a word.
///
/// ```
/// let mut buffer = [0; 12];
/// assert_eq!(lampcygnet::sheet::write_figure(&mut buffer, 0, 0o173, -98), Ok(12));
/// assert_eq!(buffer, [0x11, 0, 9, 0o173, 255, 255, 255, 255, 255, 255, 255, 158]);
/// ```
pub fn write_figure(out: &mut [u8], place: usize, label: u8, millionths: i64) -> Result<usize, SheetRefusal> {
    // Pointer and length are those of a slice that is borrowed alone.
    written(unsafe { ffi::lampcygnet_write_figure(out.as_mut_ptr(), out.len(), place, label, millionths) })
}

/// Writes a note field, as [`write_word`] writes a word.
///
/// ```
/// let mut buffer = [0; 6];
/// assert_eq!(lampcygnet::sheet::write_note(&mut buffer, 0, b"wet"), Ok(6));
/// assert_eq!(&buffer, b"\x12\x00\x03wet");
/// ```
pub fn write_note(out: &mut [u8], place: usize, text: &[u8]) -> Result<usize, SheetRefusal> {
    // Pointers and lengths are those of two slices, of which the one that is written is borrowed alone.
    written(unsafe { ffi::lampcygnet_write_note(out.as_mut_ptr(), out.len(), place, text.as_ptr(), text.len()) })
}

/// Writes a group of a run of fields. The run must be one that may stand inside a group at depth 1: it is refused first, 9
/// to 12, with the offset in the run; then as [`write_word`] refuses.
///
/// ```
/// use lampcygnet::sheet::{write_group, SheetRefusal};
/// use lampcygnet::Refusal;
///
/// let mut buffer = [0; 6];
/// assert_eq!(write_group(&mut buffer, 0, &[0x12, 0, 0]), Ok(6));
/// assert_eq!(buffer, [0x20, 0, 3, 0x12, 0, 0]);
/// assert_eq!(write_group(&mut buffer, 0, &[0x12]), Err(SheetRefusal { refusal: Refusal::Truncated, offset: 0 }));
/// ```
pub fn write_group(out: &mut [u8], place: usize, run: &[u8]) -> Result<usize, SheetRefusal> {
    // Pointers and lengths are those of two slices, of which the one that is written is borrowed alone.
    written(unsafe { ffi::lampcygnet_write_group(out.as_mut_ptr(), out.len(), place, run.as_ptr(), run.len()) })
}

impl Content<'_> {
    /// Writes a field with this content, as the function for its sort does.
    ///
    /// ```
    /// use lampcygnet::sheet::Content;
    ///
    /// let mut buffer = [0; 7];
    /// assert_eq!(Content::Word(0xE8000049).write(&mut buffer, 0), Ok(7));
    /// ```
    pub fn write(&self, out: &mut [u8], place: usize) -> Result<usize, SheetRefusal> {
        match *self {
            Content::Word(word) => write_word(out, place, word),
            Content::Figure { label, millionths } => write_figure(out, place, label, millionths),
            Content::Note(text) => write_note(out, place, text),
            Content::Group(run) => write_group(out, place, run),
        }
    }

    /// How many bytes a field with this content has.
    fn field_length(&self) -> usize {
        let length = match self {
            Content::Word(_) => 4,
            Content::Figure { .. } => 9,
            Content::Note(bytes) | Content::Group(bytes) => bytes.len(),
        };
        length.saturating_add(3)
    }
}

/// Makes a sheet field by field. What it holds is a legal sheet after every call; a refused field is left out.
///
/// ```
/// use lampcygnet::sheet::{Builder, SheetRefusal};
///
/// let mut approach = Builder::new();
/// approach.word(0x640000DE)?.figure(0o173, 100_000)?;
/// let mut flight = Builder::new();
/// flight.note(b"first approach")?.group(approach.as_bytes())?;
/// assert_eq!(flight.sheet().listing(), "173 0 ready 0.100000\nfigure agrees\nwords 1 refused 0\n");
/// # Ok::<(), SheetRefusal>(())
/// ```
#[derive(Clone, Debug, Default, PartialEq, Eq)]
pub struct Builder {
    bytes: Vec<u8>,
}

impl Builder {
    /// The empty sheet.
    pub fn new() -> Builder {
        Builder::default()
    }

    /// Adds a field at the end. Refused 15 if the sheet would grow past [`SHEET_MOST`] bytes; a group's run first, 9 to 12.
    pub fn push(&mut self, content: Content<'_>) -> Result<&mut Builder, SheetRefusal> {
        let place = self.bytes.len();
        let end = place.saturating_add(content.field_length()).min(SHEET_MOST);
        self.bytes.resize(end, 0);
        let written = content.write(&mut self.bytes, place);
        self.bytes.truncate(*written.as_ref().unwrap_or(&place));
        written.map(|_| self)
    }

    /// Adds a word.
    pub fn word(&mut self, word: u32) -> Result<&mut Builder, SheetRefusal> {
        self.push(Content::Word(word))
    }

    /// Adds a figure.
    pub fn figure(&mut self, label: u8, millionths: i64) -> Result<&mut Builder, SheetRefusal> {
        self.push(Content::Figure { label, millionths })
    }

    /// Adds a note.
    pub fn note(&mut self, text: &[u8]) -> Result<&mut Builder, SheetRefusal> {
        self.push(Content::Note(text))
    }

    /// Adds a group of a run of fields, such as another builder's bytes.
    pub fn group(&mut self, run: &[u8]) -> Result<&mut Builder, SheetRefusal> {
        self.push(Content::Group(run))
    }

    /// The sheet so far. It is legal, since a field added at the end of a legal sheet leaves a legal sheet.
    pub fn sheet(&self) -> Sheet<'_> {
        Sheet { bytes: &self.bytes }
    }

    /// The bytes so far.
    pub fn as_bytes(&self) -> &[u8] {
        &self.bytes
    }

    /// The sheet's bytes.
    pub fn into_bytes(self) -> Vec<u8> {
        self.bytes
    }
}
