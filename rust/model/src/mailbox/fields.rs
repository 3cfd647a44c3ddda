//! Document 01, "Mailbox": the table of its commands, and P6's two.

use Command::{Clkc, Ehdl, Fers, Fsta, Klod, Kunl, Rhpk};
use Field::{Chksum, CmdTimeout, HpkeHandle, Mek, Partition, Reserved, TagHigh, TagLow};

/// "Mailbox": a row of the table, by the command's name; after them P6's messages.
#[derive(Clone, Copy, Debug, PartialEq, Eq)]
#[allow(missing_docs)]
pub enum Command {
    Clkc,
    Klod,
    Kunl,
    Fers,
    Fsta,
    Ehdl,
    Rhpk,
}

/// "Mailbox": the fields of requests, by the table's names, and document 003's of a handle. Every
/// one is a u32 but the "64 MEK bytes".
#[derive(Clone, Copy, Debug, PartialEq, Eq)]
#[allow(missing_docs)]
pub enum Field {
    Chksum,
    Reserved,
    CmdTimeout,
    TagLow,
    TagHigh,
    Mek,
    Partition,
    HpkeHandle,
}

impl Command {
    /// All of them.
    pub const ALL: [Command; 7] = [Clkc, Klod, Kunl, Fers, Fsta, Ehdl, Rhpk];

    /// "Mailbox": name, code and fields. "Every request begins chksum, reserved",
    /// then the column "request after reserved"; P6: EHDL "without further field", RHPK: "handle".
    fn row(self) -> (&'static str, u32, &'static [Field]) {
        match self {
            Clkc => ("CLKC", 0x434C_4B43, &[Chksum, Reserved, CmdTimeout]),
            Klod => ("KLOD", 0x4B4C_4F44, &[Chksum, Reserved, CmdTimeout, TagLow, TagHigh, Mek]),
            Kunl => ("KUNL", 0x4B55_4E4C, &[Chksum, Reserved, CmdTimeout, TagLow, TagHigh]),
            Fers => ("FERS", 0x4645_5253, &[Chksum, Reserved, Partition]),
            Fsta => ("FSTA", 0x4653_5441, &[Chksum, Reserved]),
            Ehdl => ("EHDL", 0x4548_444C, &[Chksum, Reserved]),
            Rhpk => ("RHPK", 0x5248_504B, &[Chksum, Reserved, HpkeHandle]),
        }
    }

    /// "Mailbox": the first column.
    pub fn name(self) -> &'static str {
        self.row().0
    }

    /// "Mailbox": "The code names the command."
    pub fn code(self) -> u32 {
        self.row().1
    }

    /// "Mailbox": the fields of a request, with those that every one begins with.
    pub fn request_fields(self) -> &'static [Field] {
        self.row().2
    }
}

/// "Mailbox": how many bytes these fields take.
pub fn length(fields: &[Field]) -> usize {
    fields.iter().map(|field| if *field == Mek { 64 } else { 4 }).sum()
}
