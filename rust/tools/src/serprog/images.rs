//! The images of the chips on a bus: a file for each, in their order, or none at all.

use std::path::PathBuf;

use m25p::Part;

use super::parts::name_of;
use super::Image;
use crate::command::same;

/// Each image, and how a sentence about it begins.
pub struct Images(Vec<(String, Image)>);

impl Images {
    /// Reads and locks the file of each chip, or says in a sentence why it can't. No two chips have one file.
    pub fn open(paths: &[PathBuf], parts: &[Part]) -> Result<Images, String> {
        let mut images = Vec::new();
        for (chip, (path, part)) in paths.iter().zip(parts).enumerate() {
            if let Some(other) = paths[..chip].iter().position(|other| same(other, path)) {
                let file = path.display();
                return Err(format!(
                    "The image {file} is given for both chip {other} and chip {chip}."
                ));
            }
            let whose = match parts {
                [_] => String::new(),
                _ => format!("Chip {chip}, the {}: ", name_of(*part)),
            };
            let image =
                Image::open(path, *part).map_err(|sentence| format!("{whose}{sentence}"))?;
            images.push((whose, image));
        }
        Ok(Images(images))
    }

    /// The contents of each chip that has an image.
    pub fn contents(&self) -> impl Iterator<Item = &[u8]> {
        self.0.iter().map(|(_, image)| image.contents())
    }

    /// Writes the array of each chip back, see [`Image::store`]. All are tried, and each file that can't be written is
    /// told in a line.
    pub fn store<'a>(&mut self, arrays: impl Iterator<Item = &'a [u8]>) -> Result<(), String> {
        let mut failed = Vec::new();
        for ((whose, image), array) in self.0.iter_mut().zip(arrays) {
            if let Err(sentence) = image.store(array) {
                failed.push(format!("{whose}{sentence}"));
            }
        }
        if failed.is_empty() {
            Ok(())
        } else {
            Err(failed.join("\n"))
        }
    }
}
