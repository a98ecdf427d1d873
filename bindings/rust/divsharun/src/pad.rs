// SPDX-License-Identifier: Apache-2.0 OR BSD-3-Clause
//! Texts of several parts that are padded as a whole.

use core::fmt::{self, Alignment, Write};

/// Writes a text by the width, the fill, the alignment and the precision of a format. If there is a
/// width, `text` is called twice, because its characters are counted first.
pub(crate) fn pad(
    f: &mut fmt::Formatter<'_>,
    text: impl Fn(&mut dyn Write) -> fmt::Result,
) -> fmt::Result {
    let (most, mut missing) = (f.precision().unwrap_or(usize::MAX), 0);
    if let Some(width) = f.width() {
        let mut counted = Prefix(None, most);
        text(&mut counted)?;
        missing = width.saturating_sub(most - counted.1);
    }
    let before = match f.align() {
        Some(Alignment::Right) => missing,
        Some(Alignment::Center) => missing / 2,
        Some(Alignment::Left) | None => 0,
    };
    fill(f, before)?;
    text(&mut Prefix(Some(f), most))?;
    fill(f, missing - before)
}

/// Writes the fill of a format this number of times.
fn fill(f: &mut fmt::Formatter<'_>, count: usize) -> fmt::Result {
    let fill = f.fill();
    (0..count).try_for_each(|_| f.write_char(fill))
}

/// Passes on at most this number of characters, or only counts them down.
struct Prefix<'a>(Option<&'a mut dyn Write>, usize);

impl Write for Prefix<'_> {
    fn write_str(&mut self, text: &str) -> fmt::Result {
        let Prefix(to, left) = self;
        let end = text.char_indices().nth(*left);
        let text = end.map_or(text, |(end, _)| &text[..end]);
        *left -= text.chars().count();
        to.as_mut().map_or(Ok(()), |to| to.write_str(text))
    }
}
