//! Document 01, "Mailbox": a request as it comes, and its fields.

use super::fields::{self, Command, Field};
use super::sum;

/// "Mailbox": a code and the request's bytes. Nothing is checked.
#[derive(Clone, Debug, PartialEq, Eq)]
pub struct Request {
    /// The code.
    pub code: u32,
    /// The request's bytes.
    pub bytes: Vec<u8>,
}

/// "Mailbox": what the fields of a request hold; each command takes those in
/// its list. The chksum follows from the others.
#[derive(Clone, Copy, Debug)]
#[allow(missing_docs)]
pub struct Values {
    pub reserved: u32,
    pub timeout: u32,
    pub tag: u64,
    pub mek: [u8; 64],
    pub partition: u32,
    pub handle: u32,
}

/// A request in which everything is zero.
impl Default for Values {
    fn default() -> Values {
        Values { reserved: 0, timeout: 0, tag: 0, mek: [0; 64], partition: 0, handle: 0 }
    }
}

impl Request {
    /// "Mailbox": the request of a command, with the right chksum.
    pub fn of(command: Command, values: &Values) -> Request {
        let field = |field: &Field| match field {
            Field::Chksum => vec![0; 4],
            Field::Reserved => values.reserved.to_le_bytes().to_vec(),
            Field::CmdTimeout => values.timeout.to_le_bytes().to_vec(),
            Field::TagLow => values.tag.to_le_bytes()[..4].to_vec(),
            Field::TagHigh => values.tag.to_le_bytes()[4..].to_vec(),
            Field::Mek => values.mek.to_vec(),
            Field::Partition => values.partition.to_le_bytes().to_vec(),
            Field::HpkeHandle => values.handle.to_le_bytes().to_vec(),
        };
        let bytes = command.request_fields().iter().flat_map(field).collect();
        let mut request = Request { code: command.code(), bytes };
        let chksum = request.right_chksum();
        sum::put_chksum(&mut request.bytes, chksum);
        request
    }

    /// "Mailbox": the command that the code names, none if it is unknown.
    pub fn command(&self) -> Option<Command> {
        Command::ALL.into_iter().find(|command| command.code() == self.code)
    }

    /// "Mailbox": the chksum that the code and the bytes ask for.
    pub fn right_chksum(&self) -> u32 {
        sum::request_chksum(self.code, &self.bytes)
    }

    /// "Every request begins chksum, reserved", that of an unknown code too.
    /// None if the request ends before the field does.
    pub fn chksum(&self) -> Option<u32> {
        self.bytes.get(..4).map(number)
    }

    /// "Every request begins chksum, reserved", as above.
    pub fn reserved(&self) -> Option<u32> {
        self.bytes.get(4..8).map(number)
    }

    /// The number in a field, if the command has it and the request reaches so far.
    pub(super) fn number(&self, field: Field) -> Option<u32> {
        self.find(field).map(number)
    }

    /// "tag low, tag high", if the command has them and the request reaches so far.
    pub fn tag(&self) -> Option<u64> {
        let (low, high) = (self.number(Field::TagLow)?, self.number(Field::TagHigh)?);
        Some(u64::from(low) + (u64::from(high) << 32))
    }

    /// The partition, if the command has it and the request reaches so far.
    pub fn partition(&self) -> Option<u32> {
        self.number(Field::Partition)
    }

    /// P6: the handle, if the command has it and the request reaches so far.
    pub fn handle(&self) -> Option<u32> {
        self.number(Field::HpkeHandle)
    }

    /// The bytes of a field, if the command has it and the request reaches so far.
    pub(super) fn find(&self, field: Field) -> Option<&[u8]> {
        let fields = self.command()?.request_fields();
        let before = fields.iter().position(|listed| *listed == field)?;
        let start = fields::length(&fields[..before]);
        self.bytes.get(start..start + fields::length(&[field]))
    }
}

/// "Little-endian u32 fields".
pub(crate) fn number(bytes: &[u8]) -> u32 {
    u32::from_le_bytes([bytes[0], bytes[1], bytes[2], bytes[3]])
}
