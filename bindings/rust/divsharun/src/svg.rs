// SPDX-License-Identifier: Apache-2.0 OR BSD-3-Clause
//! Pictures of layouts.

use crate::convert::out_of_memory;
use crate::{Block, Layout, NodeState, TryError};
use alloc::string::String;
use core::fmt::{self, Write};

const NAMESPACE: &str = "http://www.w3.org/2000/svg";

/// The style of a light page and of a dark page.
const STYLE: &str = "\
text { font: 12px system-ui, sans-serif; fill: #1f2328 } .end { text-anchor: end }
rect { stroke: #fff } .held { fill: #9ec5ee } .gap { fill: #eef1f4 }
@media (prefers-color-scheme: dark) {
  text { fill: #e6edf3 } rect { stroke: #0d1117 } .held { fill: #2f5f94 } .gap { fill: #22272e }
}";

impl Layout<'_> {
    /// Returns a picture of the space, as the text of an SVG file.
    ///
    /// The picture is a column with a row for each block. A row has the start, the length and the name, and
    /// that of a gap is pale. The row of the shortest block is 14 units high, and others are one unit higher
    /// for each doubling of the length. Lengths are rounded down: for the height to a power of two, and as
    /// text to a hundredth of the largest unit. Names are escaped, and U+FFFD replaces each character that
    /// XML cannot have.
    ///
    /// # Example
    ///
    /// ```rust
    /// use divsharun::{AddressAllocator, AllocPolicy};
    ///
    /// let mut mmio = AddressAllocator::new(0xd000_0000, 0x1000_0000)?;
    /// let disk = mmio.allocate(0x1000, 0x1000, AllocPolicy::FirstMatch)?;
    /// let picture = mmio.layout().named([(disk, "virtio-blk")]).svg();
    /// assert!(picture.contains(">4 KiB<") && picture.contains(">virtio-blk<"));
    /// assert!(picture.contains(">255.99 MiB<") && picture.contains(">gap<"));
    /// # Ok::<(), divsharun::Error>(())
    /// ```
    #[must_use]
    pub fn svg(&self) -> String {
        self.try_svg().unwrap_or_else(|_| out_of_memory())
    }

    /// Returns a picture like [`svg`](Self::svg), but returns an error if memory runs out.
    ///
    /// # Errors
    ///
    /// - `OutOfMemory` if memory for the text runs out.
    pub fn try_svg(&self) -> Result<String, TryError> {
        let mut text = Text(String::new());
        let written = self.write_svg(&mut text);
        written.map_err(|_| TryError::OutOfMemory)?;
        Ok(text.0)
    }

    fn write_svg(&self, text: &mut Text) -> fmt::Result {
        let power_of = |block: Block<'_>| block.range.len().ilog2();
        let shortest = self.blocks().map(power_of).min().unwrap_or(0);
        let height_of = |block| u64::from(14 + power_of(block) - shortest);
        let height: u64 = self.blocks().map(height_of).sum();
        writeln!(
            text,
            r#"<svg xmlns="{NAMESPACE}" width="640" height="{height}" viewBox="0 0 640 {height}">"#
        )?;
        writeln!(text, "<style>\n{STYLE}\n</style>")?;
        let mut top = 0;
        for block in self.blocks() {
            let height = height_of(block);
            self.write_row(text, block, top, height)?;
            top += height;
        }
        text.write_str("</svg>\n")
    }

    fn write_row(&self, text: &mut Text, block: Block<'_>, top: u64, height: u64) -> fmt::Result {
        let (digits, start, size) = (self.digits(), block.range.start(), Size(block.range.len()));
        let class = match block.state {
            NodeState::Free => "gap",
            NodeState::Allocated => "held",
        };
        let line = top + height / 2 + 4;
        write!(
            text,
            r#"<rect class="{class}" y="{top}" width="640" height="{height}"/>
<text class="end" x="132" y="{line}">{start:0digits$x}</text>
<text class="end" x="220" y="{line}">{size}</text>
<text x="236" y="{line}">"#
        )?;
        for character in block.text().chars() {
            match character {
                '&' => text.write_str("&amp;")?,
                '<' => text.write_str("&lt;")?,
                '>' => text.write_str("&gt;")?,
                '\0'..' ' | '\u{fffe}' | '\u{ffff}' => text.write_char('\u{fffd}')?,
                _ => text.write_char(character)?,
            }
        }
        writeln!(text, "</text>")
    }
}

/// A text that returns an error if memory runs out.
struct Text(String);

impl Write for Text {
    fn write_str(&mut self, text: &str) -> fmt::Result {
        self.0.try_reserve(text.len()).map_err(|_| fmt::Error)?;
        self.0.push_str(text);
        Ok(())
    }
}

/// A length with its largest unit, rounded down to hundredths.
struct Size(u64);

impl fmt::Display for Size {
    fn fmt(&self, f: &mut fmt::Formatter<'_>) -> fmt::Result {
        let thousands = self.0.ilog2() / 10;
        let unit = ["B", "KiB", "MiB", "GiB", "TiB", "PiB", "EiB"][thousands as usize];
        let hundredths = (u128::from(self.0) * 100) >> (10 * thousands);
        match (hundredths / 100, hundredths % 100) {
            (whole, 0) => write!(f, "{whole} {unit}"),
            (whole, rest) => write!(f, "{whole}.{rest:02} {unit}"),
        }
    }
}
