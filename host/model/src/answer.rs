//! What a call gives back: refusal numbers, replies and the four-byte record.

/// The refusals, with the paper's numbers.
#[derive(Clone, Copy, PartialEq, Eq, Debug)]
pub enum Refusal {
    /// The state is not fit, or the bytes are the image of none.
    UnfitState = 1,
    /// A bit that must be 0 is set.
    StrayBit = 2,
    /// No RESET has come yet, and this is not one.
    NotStarted = 3,
    /// Fewer than four answer bytes for each word.
    ShortAnswers = 4,
    /// More words than a batch may have.
    TooManyWords = 5,
    /// Packing: straps that do not fit into four bits.
    WideStraps = 6,
    /// A put while as many words wait as there are places.
    QueueFull = 7,
    /// A take while no word waits.
    QueueEmpty = 8,
    /// A chassis of none or of more than four records.
    ChassisLength = 9,
    /// PINS or RESET for a record that the chassis has not.
    AbsentRecord = 10,
    /// RESET to the own address of a started neighbour.
    TakenAddress = 11,
    /// Naming: a number that no kind has.
    NoSuchKind = 14,
}

/// What the host sees of the bus after one event.
#[derive(Clone, Copy, PartialEq, Eq, Debug)]
pub enum Reply {
    None,
    Ack,
    NoAck,
    Driven(u8),
    NotDriven,
}

impl Reply {
    pub(crate) fn number(self) -> u32 {
        match self {
            Reply::None => 0,
            Reply::Ack => 1,
            Reply::NoAck => 2,
            Reply::Driven(_) => 3,
            Reply::NotDriven => 4,
        }
    }

    pub(crate) fn byte(self) -> u8 {
        match self {
            Reply::Driven(value) => value,
            // Nobody pulls the line low, so the host clocks in ones.
            Reply::NotDriven => 0xFF,
            _ => 0,
        }
    }
}

/// The answer to one event word.
#[derive(Clone, Copy, PartialEq, Eq, Debug)]
pub struct Answer {
    pub refusal: Option<Refusal>,
    pub reply: Reply,
    pub outputs: u16,
}

/// The length of one packed answer.
pub const RECORD_BYTES: usize = 4;

impl Answer {
    /// The answer where there is no fit state to give the word to.
    pub const UNFIT: Answer = Answer { refusal: Some(Refusal::UnfitState), reply: Reply::None, outputs: 0 };

    /// Refusal 4 bits, reply 3, byte 8, outputs 9 and eight zero bits, most significant first.
    pub fn bits(&self) -> u32 {
        let refusal = self.refusal.map_or(0, |refusal| refusal as u32);
        let byte = u32::from(self.reply.byte());
        let outputs = u32::from(self.outputs);
        refusal << 28 | self.reply.number() << 25 | byte << 17 | outputs << 8
    }

    /// The same, as bytes.
    pub fn record(&self) -> [u8; RECORD_BYTES] {
        self.bits().to_be_bytes()
    }
}
