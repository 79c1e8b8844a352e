//! The archive's sheets: fields one after the other, each a tag, a length and a content, where a group's content is fields
//! again, to depth 4. A sheet has at most [`SHEET_MOST`] bytes.
//!
//! ```
//! use lampcygnet::sheet::{Builder, Content, Sheet, SheetRefusal};
//!
//! let mut builder = Builder::new();
//! builder.note(b"runway 23")?.word(0x640000DE)?.figure(0o173, 1_000_000)?;
//! let bytes = builder.into_bytes();
//!
//! let sheet = Sheet::new(&bytes)?;
//! let words = sheet.fields().filter(|field| matches!(field.content, Content::Word(_)));
//! assert_eq!(words.count(), 1);
//! assert_eq!(sheet.note(0)?, b"runway 23");
//! assert_eq!(sheet.to_string(), "173 0 ready 0.100000\nfigure differs\nwords 1 refused 0\n");
//! # Ok::<(), SheetRefusal>(())
//! ```

mod summary;
mod writer;

pub use summary::{summarize, Mean, Range, Summary};
pub use writer::{write_figure, write_group, write_note, write_word, Builder};

use crate::ffi;
use crate::Refusal;
use std::error::Error;
use std::fmt;
use std::iter::FusedIterator;

/// The most bytes that a sheet has.
pub const SHEET_MOST: usize = 32_768;

/// The most bytes that a listing has.
pub const LISTING_MOST: usize = 117_085;

/// Why a sheet, a note, a field or a summary is refused, and where.
#[derive(Clone, Copy, Debug, PartialEq, Eq, Hash)]
pub struct SheetRefusal {
    pub refusal: Refusal,
    /// The offset of the refused field's tag in the sheet, or in the run that was to be a group; the place at which a note
    /// was asked for; 0 for [`Refusal::Oversize`] and [`Refusal::Room`], and for [`Refusal::Label`] and [`Refusal::Code`] of a
    /// summary.
    pub offset: usize,
}

impl SheetRefusal {
    /// The value, unless the number beside it is that of a refusal.
    fn unless<T>(number: u8, offset: usize, value: impl FnOnce() -> T) -> Result<T, SheetRefusal> {
        Refusal::unless(number, value).map_err(|refusal| SheetRefusal { refusal, offset })
    }
}

impl fmt::Display for SheetRefusal {
    fn fmt(&self, f: &mut fmt::Formatter<'_>) -> fmt::Result {
        write!(f, "{}, at offset {}", self.refusal, self.offset)
    }
}

impl Error for SheetRefusal {}

/// A legal sheet, as the bytes that hold it.
#[derive(Clone, Copy, Debug, PartialEq, Eq, Hash)]
pub struct Sheet<'a> {
    bytes: &'a [u8],
}

impl<'a> Sheet<'a> {
    /// Checks the bytes: refused 15 above [`SHEET_MOST`] of them, else the first from the left, at each field 9 (header
    /// cut), 10, 9 (content cut), 11, 12, then a group's inside.
    ///
    /// ```
    /// use lampcygnet::sheet::{Sheet, SheetRefusal};
    /// use lampcygnet::Refusal;
    ///
    /// assert!(Sheet::new(&[]).is_ok());
    /// let refusal = Sheet::new(&[0x20, 0, 1, 0x10]).unwrap_err(); // a group that holds one byte
    /// assert_eq!(refusal, SheetRefusal { refusal: Refusal::Truncated, offset: 3 });
    /// assert_eq!(refusal.to_string(), "refused 9: a field is cut short, at offset 3");
    /// ```
    pub fn new(bytes: &'a [u8]) -> Result<Sheet<'a>, SheetRefusal> {
        // Pointer and length are those of a slice, which is only read.
        let checked = unsafe { ffi::lampcygnet_check_sheet(bytes.as_ptr(), bytes.len()) };
        SheetRefusal::unless(checked.refusal, checked.offset, || Sheet { bytes })
    }

    /// The sheet's bytes.
    pub fn as_bytes(&self) -> &'a [u8] {
        self.bytes
    }

    /// The fields in the order of their tags, a group before its inside.
    ///
    /// ```
    /// use lampcygnet::sheet::{Content, Field, Sheet};
    ///
    /// let sheet = Sheet::new(&[0x20, 0, 7, 0x10, 0, 4, 0xE8, 0, 0, 0x49]).unwrap();
    /// let mut fields = sheet.fields();
    /// let inside = &[0x10, 0, 4, 0xE8, 0, 0, 0x49];
    /// assert_eq!(fields.next(), Some(Field { place: 0, depth: 1, content: Content::Group(inside) }));
    /// assert_eq!(fields.next(), Some(Field { place: 3, depth: 2, content: Content::Word(0xE8000049) }));
    /// assert_eq!(fields.next(), None);
    /// ```
    pub fn fields(&self) -> Fields<'a> {
        // Pointer and length are those of a slice, which is only read.
        let walk = unsafe { ffi::lampcygnet_walk_from_start(self.bytes.as_ptr(), self.bytes.len()) };
        Fields {
            sheet: self.bytes,
            walk,
        }
    }

    /// The text of the note whose tag stands at a place; refused 10 with that place where there is none.
    ///
    /// ```
    /// use lampcygnet::sheet::{Sheet, SheetRefusal};
    /// use lampcygnet::Refusal;
    ///
    /// let sheet = Sheet::new(b"\x12\x00\x03wet").unwrap();
    /// assert_eq!(sheet.note(0), Ok(&b"wet"[..]));
    /// assert_eq!(sheet.note(3), Err(SheetRefusal { refusal: Refusal::Tag, offset: 3 }));
    /// ```
    pub fn note(&self, place: usize) -> Result<&'a [u8], SheetRefusal> {
        // Pointer and length are those of a slice, which is only read.
        let note = unsafe { ffi::lampcygnet_find_note(self.bytes.as_ptr(), self.bytes.len(), place) };
        SheetRefusal::unless(note.refusal, note.start, || part(self.bytes, note.start, note.length))
    }

    /// The listing: a line for each word and each figure, at last the totals. [`list`] also lists bytes that are no sheet.
    ///
    /// ```
    /// use lampcygnet::sheet::Sheet;
    ///
    /// let sheet = Sheet::new(&[0x10, 0, 4, 0xE8, 0, 0, 0x48]).unwrap();
    /// assert_eq!(sheet.listing(), "refused 1\nwords 1 refused 1\n");
    /// ```
    pub fn listing(&self) -> String {
        list(self.bytes)
    }
}

impl<'a> TryFrom<&'a [u8]> for Sheet<'a> {
    type Error = SheetRefusal;

    fn try_from(bytes: &'a [u8]) -> Result<Sheet<'a>, SheetRefusal> {
        Sheet::new(bytes)
    }
}

impl<'a> IntoIterator for Sheet<'a> {
    type Item = Field<'a>;
    type IntoIter = Fields<'a>;

    fn into_iter(self) -> Fields<'a> {
        self.fields()
    }
}

/// The listing, with a newline after each line.
impl fmt::Display for Sheet<'_> {
    fn fmt(&self, f: &mut fmt::Formatter<'_>) -> fmt::Result {
        f.write_str(&self.listing())
    }
}

/// A part of a sheet. The library gives only parts that lie inside.
fn part(bytes: &[u8], start: usize, length: usize) -> &[u8] {
    bytes
        .get(start..)
        .and_then(|rest| rest.get(..length))
        .unwrap_or_default()
}

/// A field of a sheet.
#[derive(Clone, Copy, Debug, PartialEq, Eq, Hash)]
pub struct Field<'a> {
    /// The offset of its tag.
    pub place: usize,
    /// 1 to 4.
    pub depth: u8,
    pub content: Content<'a>,
}

/// What a field holds. Any word and any label may stand in a sheet.
#[derive(Clone, Copy, Debug, PartialEq, Eq, Hash)]
pub enum Content<'a> {
    Word(u32),
    Figure {
        label: u8,
        millionths: i64,
    },
    /// The sheet's own bytes.
    Note(&'a [u8]),
    /// The sheet's own bytes: the fields of the group, which are also given one by one.
    Group(&'a [u8]),
}

/// The content of a field by its tag; none for a tag that no field has, or bytes that hold no such content.
fn content_of(tag: u8, bytes: &[u8]) -> Option<Content<'_>> {
    match tag {
        0x10 => {
            // Pointer and length are those of a slice, which is only read.
            let word = unsafe { ffi::lampcygnet_word_in(bytes.as_ptr(), bytes.len()) };
            (word.refusal == 0).then_some(Content::Word(word.word))
        }
        0x11 => {
            // Pointer and length are those of a slice, which is only read.
            let figure = unsafe { ffi::lampcygnet_figure_in(bytes.as_ptr(), bytes.len()) };
            (figure.refusal == 0).then_some(Content::Figure {
                label: figure.label,
                millionths: figure.millionths,
            })
        }
        0x12 => Some(Content::Note(bytes)),
        0x20 => Some(Content::Group(bytes)),
        _ => None,
    }
}

/// The fields of a sheet, from [`Sheet::fields`].
#[derive(Clone, Debug)]
pub struct Fields<'a> {
    sheet: &'a [u8],
    walk: ffi::Walk,
}

impl<'a> Iterator for Fields<'a> {
    type Item = Field<'a>;

    fn next(&mut self) -> Option<Field<'a>> {
        // Pointer and length are those of a slice, which is only read.
        let step = unsafe { ffi::lampcygnet_next_field(self.sheet.as_ptr(), self.sheet.len(), self.walk) };
        self.walk = step.next;
        let (place, length) = (step.field.place, step.field.length);
        let content = content_of(step.field.tag, part(self.sheet, place.saturating_add(3), length))?;
        Some(Field {
            place,
            depth: step.field.depth,
            content,
        })
    }

    /// A field has three bytes of its own at least.
    fn size_hint(&self) -> (usize, Option<usize>) {
        (0, Some(self.sheet.len().saturating_sub(self.walk.place) / 3))
    }
}

/// At the end each step of the walk gives the end again.
impl FusedIterator for Fields<'_> {}

/// The listing of any bytes: of a sheet as [`Sheet::listing`] gives it, else one line with the refusal and its offset.
///
/// ```
/// use lampcygnet::sheet::list;
///
/// assert_eq!(list(&[]), "words 0 refused 0\n");
/// assert_eq!(list(&[0x13]), "sheet refused 9 at 0\n");
/// ```
pub fn list(bytes: &[u8]) -> String {
    let mut text = vec![0; LISTING_MOST];
    let length = list_into(bytes, &mut text).unwrap_or(0); // a buffer of this size is never refused
    String::from_utf8_lossy(part(&text, 0, length)).into_owned()
}

/// Writes the listing that [`list`] gives to the start of a buffer, and gives its length. Refused 13 if the buffer is too
/// short, and it is then left as it was; one of [`LISTING_MOST`] bytes always suffices.
///
/// ```
/// use lampcygnet::sheet::list_into;
/// use lampcygnet::Refusal;
///
/// let mut text = [b'.'; 20];
/// assert_eq!(list_into(&[], &mut text[..17]), Err(Refusal::Room));
/// assert_eq!(list_into(&[], &mut text), Ok(18));
/// assert_eq!(&text, b"words 0 refused 0\n..");
/// ```
pub fn list_into(bytes: &[u8], out: &mut [u8]) -> Result<usize, Refusal> {
    // Pointers and lengths are those of two slices, of which the one that is written is borrowed alone.
    let listed = unsafe { ffi::lampcygnet_list_sheet(bytes.as_ptr(), bytes.len(), out.as_mut_ptr(), out.len()) };
    Refusal::unless(listed.refusal, || listed.length)
}
