//! The numbers of the code table ("Codes").

/// A refusal, by its number in the table.
#[derive(Clone, Copy, Debug, PartialEq, Eq)]
pub enum Code {
    /// A buffer or a line of wrong size.
    Size = 1,
    /// The buffer is no image.
    Image = 2,
    /// Kind, byte 1, counts, length, offsets or zero bytes wrong.
    Layout = 3,
    /// A sequence number 0000.
    Number = 4,
    /// Dependencies out of order, equal, own or predecessor.
    Dependencies = 5,
    /// A field or a command out of its range.
    Range = 6,
    /// The sequence is present with other bytes.
    Conflict = 7,
    /// 64 present and this sequence new.
    Full = 8,
    /// Compose: the line has a held delta.
    HeldLine = 9,
    /// Compose: number, group or block would pass its limit.
    Limit = 10,
    /// Compose: over eight dependencies.
    Crowded = 11,
    /// Log place not below L, or tag above 63.
    Place = 12,
    /// Text: a wrong character, length or comma; sequences not 12 to 96 bytes by twelves.
    Form = 13,
    /// Text: a number 0000.
    Zero = 14,
    /// Purge: K exceeds L.
    Beyond = 15,
    /// Purge: over 32 floors would result.
    Floors = 16,
}

impl Code {
    /// The number the table gives.
    pub fn number(self) -> u32 {
        self as u32
    }
}
