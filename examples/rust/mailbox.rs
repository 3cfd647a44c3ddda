//! The mailbox of the example, and the loop that its orders take:
//! 1. a command of the host goes to `mailbox`, here by `ask`;
//! 2. where the answer has an order, that goes to the engine with the block, here by
//!    `start_engine`. Until the reply every command but FSTA is refused (17);
//! 3. the engine's reply goes to `engine_reply`, here by `engine_replies`. After any other
//!    than done KLOD and KUNL are refused (18), until a CLKC is done.
//!
//! The numbers are 17 and 18 unless one of 1 to 14 applies.

use crate::{failed, Drive, Step, MAP};
use sciambrunola::{code, engine_reply, mailbox, EngineReply, Order, Place, Reply, PLACES};

/// The engine's, in the unit that host and drive have agreed on.
const TIMEOUT: u32 = 1000;

impl Drive {
    /// Puts the chksum into a request and hands it to the mailbox. The chksum is 0
    /// minus the sum of the code's four bytes and of every byte of the request
    /// behind it.
    fn ask(&mut self, code: u32, request: &mut [u8]) -> Reply {
        let summed = code.to_le_bytes().into_iter().chain(request[4..].iter().copied());
        let sum = summed.fold(0_u32, |sum, byte| sum.wrapping_add(byte.into()));
        put_field(request, 0, sum.wrapping_neg());
        let Drive { cells, marks, context, response, block } = self;
        mailbox(&MAP, cells, marks, context, code, request, response, block)
    }

    /// A command without an order for the engine has to be carried out.
    fn carry_out(&mut self, command: &str, code: u32, request: &mut [u8]) -> Step {
        match self.ask(code, request) {
            Reply::Accepted { order: Order::None, .. } => Ok(()),
            other => failed(command, other),
        }
    }

    /// Prints the places that are not empty, and answers how many there are.
    pub fn list_places(&self) -> usize {
        let named = |i| match self.context.place(i) {
            Place::Empty => None,
            Place::Waiting(_) => Some(format!("{i} waiting")),
            Place::Held(_) => Some(format!("{i} held")),
            Place::Unsure(_) => Some(format!("{i} unsure")),
        };
        let listed: Vec<String> = (0..PLACES).filter_map(named).collect();
        let line = if listed.is_empty() { "all empty".to_string() } else { listed.join(", ") };
        println!("places: {line}");
        listed.len()
    }

    /// Hands an order to the engine. Here a drive writes the block to the engine's
    /// registers from 00h on and the order to CTRL, starts a timer with the order's
    /// timeout, and wipes the block, which may hold a key. This engine is pretended:
    /// nothing is written.
    fn start_engine(&self, command: &str, order: Order) -> Step {
        match order {
            Order::Clear { timeout } => println!("{command}: clear, timeout {timeout}"),
            Order::Load { place, timeout } => {
                println!("{command}: load place {place}, timeout {timeout}");
            }
            Order::Unload { place, timeout } => {
                println!("{command}: unload place {place}, timeout {timeout}");
            }
            Order::None => return failed(command, order),
        }
        self.list_places();
        Ok(())
    }

    /// For when the engine has replied to its order, or the drive's timer has run out,
    /// which is `TimedOut`. Only what the engine itself calls done is `Done`, and only to
    /// this order: a drive drops the late reply to one that has timed out.
    pub fn engine_replies(&mut self, reply: EngineReply) -> Step {
        if let Err(number) = engine_reply(&mut self.context, reply) {
            return failed("engine's reply", number);
        }
        match reply {
            EngineReply::Done => println!("engine: done"),
            EngineReply::TimedOut => println!("engine: timed out"),
            EngineReply::Failed(vendor) => println!("engine: failed, {vendor}"),
        }
        self.list_places();
        Ok(())
    }

    /// A command with an order for the engine: starts it, unless the command is refused
    /// as it has to be, with this number, or with none if that is 0.
    fn order_engine(&self, command: &str, reply: Reply, refusal: u32) -> Step {
        match reply {
            Reply::Accepted { order, .. } if refusal == 0 => self.start_engine(command, order),
            Reply::Refused(number) if number == refusal => {
                println!("{command}: refused {number}");
                Ok(())
            }
            other => failed(command, other),
        }
    }

    pub fn load_key(&mut self, tag: u64, mek: &[u8; 64], refusal: u32) -> Step {
        let mut request = [0; 20 + 64];
        // chksum, at 0, is put in by ask
        put_field(&mut request, 4, 0); // reserved
        put_field(&mut request, 8, TIMEOUT);
        put_field(&mut request, 12, tag as u32);
        put_field(&mut request, 16, (tag >> 32) as u32);
        request[20..].copy_from_slice(mek);
        let reply = self.ask(code::KLOD, &mut request);
        // Here a drive wipes the request, which holds the key.
        self.order_engine("KLOD", reply, refusal)
    }

    pub fn clear_keys(&mut self, refusal: u32) -> Step {
        let mut request = [0; 12]; // chksum, reserved, cmd_timeout
        put_field(&mut request, 8, TIMEOUT);
        let reply = self.ask(code::CLKC, &mut request);
        self.order_engine("CLKC", reply, refusal)
    }

    /// Which slot is active, `NO_SLOT` if none is, and whether its key is available:
    /// it must be as long as the slot has its seed, and not after.
    pub fn ask_for_status(&mut self, must_be_available: bool) -> Step {
        let mut request = [0; 8]; // chksum, reserved
        self.carry_out("FSTA", code::FSTA, &mut request)?;
        let (active, available) = (field(&self.response, 12), field(&self.response, 16));
        println!("FSTA: active slot 0x{active:08X}, HEK available {available}");
        match available == u32::from(must_be_available) {
            true => Ok(()),
            false => failed("FSTA, HEK available", available),
        }
    }

    /// Prints the handles of the table, each with its algorithm.
    pub fn list_handles(&mut self) -> Step {
        let mut request = [0; 8]; // chksum, reserved
        self.carry_out("EHDL", code::EHDL, &mut request)?;
        let count = field(&self.response, 12) as usize;
        let listed = self.response[16..].chunks_exact(8).take(count);
        let named = |pair| format!("handle {} algorithm {}", field(pair, 0), field(pair, 4));
        println!("EHDL: {}", listed.map(named).collect::<Vec<_>>().join(", "));
        Ok(())
    }

    /// Gives a handle its next number, which is all that the key block does. Here a drive
    /// rotates the keypair, and saves the context before the response goes to the host, so
    /// that the number is not given again after a loss of power.
    pub fn rotate_handle(&mut self, handle: u32) -> Step {
        let mut request = [0; 12]; // chksum, reserved, hpke_handle
        put_field(&mut request, 8, handle);
        self.carry_out("RHPK", code::RHPK, &mut request)?;
        println!("RHPK: handle {handle} becomes {}", field(&self.response, 12));
        Ok(())
    }
}

/// The fields of requests and responses: four bytes each, low byte first.
fn put_field(bytes: &mut [u8], at: usize, value: u32) {
    bytes[at..at + 4].copy_from_slice(&value.to_le_bytes());
}

fn field(bytes: &[u8], at: usize) -> u32 {
    u32::from_le_bytes([bytes[at], bytes[at + 1], bytes[at + 2], bytes[at + 3]])
}
