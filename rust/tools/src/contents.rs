//! A chip's contents in a file, in one of two forms: the array as raw bytes, or an image in blocks. The file's length
//! tells which it is.

use std::borrow::Cow;
use std::path::Path;

use m25p::image::{self, Unread};
use m25p::{Answer, Chip, Durations, Part};

use crate::command::{deliver, read, refusal};

/// How the contents stand in a file.
#[derive(Clone, Copy, Debug, PartialEq, Eq)]
pub enum Form {
    /// The array, byte for byte.
    Raw,
    /// An image: blocks with numbers and sums.
    Blocks,
}

impl Form {
    pub const ALL: [Form; 2] = [Form::Raw, Form::Blocks];

    /// The form in which the part's contents have so many bytes.
    pub fn of(length: u64, part: Part) -> Option<Form> {
        Form::ALL.into_iter().find(|form| form.bytes(part) as u64 == length)
    }

    /// How many bytes the part's contents have in this form.
    pub const fn bytes(self, part: Part) -> usize {
        match self {
            Form::Raw => part.bytes(),
            Form::Blocks => part.image_bytes(),
        }
    }

    const fn words(self) -> &'static str {
        match self {
            Form::Raw => "the array",
            Form::Blocks => "an image",
        }
    }

    /// The bytes of an array of the part's size in this form.
    pub fn pack(self, part: Part, array: &[u8]) -> Cow<'_, [u8]> {
        match self {
            Form::Raw => array.into(),
            Form::Blocks => image::write(part, array).expect("an array of the part's size").into(),
        }
    }

    /// The array in bytes of this form, or a sentence that calls them so.
    pub fn unpack(self, part: Part, bytes: Vec<u8>, what: &str) -> Result<Vec<u8>, String> {
        match self {
            Form::Raw => Ok(bytes),
            Form::Blocks => image::read(part, &bytes).map_err(|unread| unread_image(what, unread)),
        }
    }

    /// The sentence of a file that has not the length of this form.
    pub fn wrong_length(self, part: Part, length: u64, file: &Path) -> String {
        let (file, form) = (file.display(), self.words());
        let needed = self.bytes(part);
        format!("{file} has {}; {form} of the {part} has {needed}.", told_length(length))
    }
}

/// The form of a file of so many bytes that may have either, or the sentence that it has neither.
pub fn form_of(part: Part, length: u64, file: &Path) -> Result<Form, String> {
    Form::of(length, part).ok_or_else(|| {
        let (file, [raw, blocks]) = (file.display(), Form::ALL.map(|form| form.bytes(part)));
        let has = told_length(length);
        format!("The image {file} has {has}; the part has {raw}, or {blocks} in blocks.")
    })
}

/// The array in the bytes of a file that may have either form, and which it has, or a sentence.
pub fn array_in(part: Part, bytes: Vec<u8>, file: &Path) -> Result<(Form, Vec<u8>), String> {
    let form = form_of(part, bytes.len() as u64, file)?;
    let array = form.unpack(part, bytes, &format!("The image {}", file.display()))?;
    Ok((form, array))
}

/// The part as delivered, with the array that a file has, if there is one, and the form of that file, raw without one.
pub fn deliver_with(
    part: Part,
    durations: Durations,
    image: Option<&Path>,
) -> Result<(Chip, Form), String> {
    let mut chip = deliver(part, durations)?;
    let Some(path) = image else { return Ok((chip, Form::Raw)) };
    let (form, array) = array_in(part, read(path)?, path)?;
    chip.array_mut().copy_from_slice(&array);
    Ok((chip, form))
}

/// A length in words, with the parts of which it is, if there are any.
fn told_length(length: u64) -> String {
    let fits = |form: Form| {
        let parts = Part::ALL.into_iter().filter(|part| form.bytes(*part) as u64 == length);
        let names: Vec<&str> = parts.map(Part::name).collect();
        (!names.is_empty()).then(|| format!("{} of the {}", form.words(), names.join(" or the ")))
    };
    match Form::ALL.into_iter().find_map(fits) {
        Some(fitting) => format!("{length} bytes, which is the length of {fitting}"),
        None => format!("{length} bytes"),
    }
}

/// The sentence of an image that cannot be read; a bad block is named.
fn unread_image(what: &str, unread: Unread) -> String {
    let Some(block) = unread.block else { return refusal(what, unread.answer) };
    let number = Answer::BadBlock.number();
    format!(
        "{what} is refused with {number}: block {block} is bad; image check lists every bad block, \
         and image salvage puts good ones of FF in their place."
    )
}
