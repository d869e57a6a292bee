//! The examples and sentences of documents 01, 02 and 03 as data: event words, and what the papers say of them in
//! numbers.
//!
//! Nothing here is a controller. Whoever has one lends its three calls, and every example is asked of it: the model's
//! tests do so with the model alone, the differential test with the library, the model and the C controller. What
//! document 03 says of the second kind needs a call more, the one that names a kind, between the words; so these are
//! stories, which are asked of a controller that lends its calls on a state.

mod batch;
mod bays;
mod bench;
mod bus;
mod buttons;
mod outputs;
mod registers;
mod second_kind;
mod story;
mod waits;
pub mod words;

pub use story::{StateCalls, Step, Story};

/// A controller's calls, each from a fresh one, with answers as the C interface has them: the refusal number times
/// 65,536 plus the value.
pub struct Calls {
    pub name: &'static str,
    pub replay: fn(&[u16], &mut [u8]) -> u32,
    pub reading: fn(&[u16], u8) -> u32,
    pub outputs: fn(&[u16]) -> u32,
}

/// What the paper says of a list of words.
pub enum Expected {
    /// The records of the list's last words, as many as stand here.
    Records(Vec<[u8; 4]>),
    /// A register's reading after the list.
    Reads(u8, u8),
    /// The nine outputs after the list.
    Outputs(u16),
    /// The answer where the batch has this many answer bytes. Bytes past the last record stay as they were, and all of
    /// them where the batch is refused.
    Batch { room: usize, answer: u32 },
}

pub struct Example {
    pub name: String,
    pub words: Vec<u16>,
    pub expected: Vec<Expected>,
}

/// All of them, in the paper's order.
pub fn examples() -> Vec<Example> {
    [
        batch::examples(),
        bus::examples(),
        registers::examples(),
        bays::examples(),
        buttons::examples(),
        waits::examples(),
        outputs::examples(),
        bench::examples(),
    ]
    .into_iter()
    .flatten()
    .collect()
}

/// Those of the second kind, in document 03's order.
pub fn stories() -> Vec<Story> {
    second_kind::stories()
}

fn example(name: impl Into<String>, parts: &[&[u16]], expected: Vec<Expected>) -> Example {
    Example { name: name.into(), words: parts.concat(), expected }
}

/// RESET with a USB device in bay 0, and with nothing anywhere.
const R: u16 = 0xC0BF;
const N: u16 = 0xC0FF;

/// The address byte for writing that both give.
const OWN: u8 = 0x90;

/// A whole write at address 90h.
fn w(register: u8, value: u8) -> [u16; 5] {
    words::write(OWN, register, value)
}

/// A write of these bytes at address 90h, from this register on.
fn w_all(register: u8, values: &[u8]) -> Vec<u16> {
    words::write_all(OWN, register, values)
}

/// A read of so many bytes at address 90h, from this register on.
fn read_all(register: u8, count: usize) -> Vec<u16> {
    words::read_all(OWN, register, count)
}

fn ticks(count: usize) -> Vec<u16> {
    vec![words::TICK; count]
}

/// The inputs change, and stay so for this many ticks.
fn hold(levels: u8, count: usize) -> Vec<u16> {
    [&[words::pins(levels)][..], &ticks(count)].concat()
}

/// A record: refusal 4 bits, reply 3, byte 8, outputs 9, eight zero bits.
fn record(refusal: u32, reply: u32, byte: u8, outputs: u32) -> [u8; 4] {
    (refusal << 28 | reply << 25 | u32::from(byte) << 17 | outputs << 8).to_be_bytes()
}

/// What the spare and the refused bytes of a buffer hold before a call.
const UNTOUCHED: u8 = 0xA5;

impl Example {
    /// Asks the controller all that the paper says of the words; the error tells what it answered instead.
    pub fn holds(&self, controller: &Calls) -> Result<(), String> {
        for expected in &self.expected {
            let (asked, answered, paper) = self.ask(expected, controller);
            if answered != paper {
                let name = controller.name;
                return Err(format!("{}: {}\n  {}: {}\n  paper: {}\n", self.name, asked, name, answered, paper));
            }
        }
        Ok(())
    }

    /// The question in words, the controller's answer, the paper's.
    fn ask(&self, expected: &Expected, controller: &Calls) -> (String, String, String) {
        match expected {
            Expected::Records(last) => {
                let mut bytes = vec![UNTOUCHED; 4 * self.words.len()];
                (controller.replay)(&self.words, &mut bytes);
                let of_last = &bytes[bytes.len() - 4 * last.len()..];
                ("the last records".to_string(), shown(of_last), shown(&last.concat()))
            }
            Expected::Reads(address, value) => {
                let answer = (controller.reading)(&self.words, *address);
                (format!("{:02X}h reads", address), hex(answer), hex(u32::from(*value)))
            }
            Expected::Outputs(bits) => {
                let answer = (controller.outputs)(&self.words);
                ("the outputs".to_string(), hex(answer), hex(u32::from(*bits)))
            }
            Expected::Batch { room, answer } => {
                let mut bytes = vec![UNTOUCHED; *room];
                let answered = (controller.replay)(&self.words, &mut bytes);
                let records = 4 * (answered & 0xFFFF) as usize;
                let beyond = bytes.iter().skip(records).filter(|&&byte| byte != UNTOUCHED).count();
                let asked = format!("a batch of {} words with {} answer bytes", self.words.len(), room);
                let told = |answer, beyond| format!("{}, {} bytes written beyond its records", hex(answer), beyond);
                (asked, told(answered, beyond), told(*answer, 0))
            }
        }
    }
}

fn hex(answer: u32) -> String {
    format!("{:08X}h", answer)
}

fn shown(bytes: &[u8]) -> String {
    bytes.iter().map(|byte| format!("{:02X}", byte)).collect::<Vec<_>>().join(" ")
}
