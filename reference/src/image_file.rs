//! The file from which the programs read their image.

use std::fs::File;
use std::io::{self, Read};

use crate::check::MOST_NETS;
use crate::image::image_length;

/// Reads an image file. A missing file counts as 0 bytes.
///
/// At most 57,353 bytes are read. This is one more than the longest image that
/// is accepted, so a longer file still draws 2 or 3.
pub fn read_image_file(name: &str) -> io::Result<Vec<u8>> {
    let most = image_length(MOST_NETS) as u64 + 1;
    let mut image = Vec::new();
    match File::open(name) {
        Ok(file) => file.take(most).read_to_end(&mut image)?,
        Err(error) if error.kind() == io::ErrorKind::NotFound => 0,
        Err(error) => return Err(error),
    };
    Ok(image)
}
