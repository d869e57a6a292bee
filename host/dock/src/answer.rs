//! Answers taken apart: the refusal and the value of a call, the record of a word.

use crate::{Error, Outputs, Refusal, Reply, Unnamed, CHASSIS_RECORDS, RECORD_BYTES};

/// The value of an answer that has no bit set above its refusal.
pub(crate) fn value(answer: u32) -> Result<u16, Error> {
    match (answer >> 16) as u16 {
        0 => Ok(answer as u16),
        number => Err(Refusal::try_from(number)?.into()),
    }
}

/// The two numbers of an unpacked word. The first may have more than a byte: the rest stands above the refusal, which is
/// in bits 23-16.
pub(crate) fn numbers(answer: u32) -> Result<(u16, u8), Error> {
    let [high, refusal, low, second] = answer.to_be_bytes();
    value(u32::from_be_bytes([0, refusal, low, second]))?;
    Ok((u16::from_be_bytes([high, low]), second))
}

/// The value of an answer whose value is a byte.
pub(crate) fn byte(answer: u32) -> Result<u8, Error> {
    let value = value(answer)?;
    u8::try_from(value).map_err(|_| Unnamed { what: "byte", number: u32::from(value) }.into())
}

/// The value of an answer that tells a byte, with bit 8 beside it, or that there is none.
pub(crate) fn held(answer: u32) -> Result<Option<u8>, Error> {
    match value(answer)?.to_be_bytes() {
        [0, 0] => Ok(None),
        [1, byte] => Ok(Some(byte)),
        _ => Err(Unnamed { what: "held byte", number: answer }.into()),
    }
}

/// What an event that was taken led to.
#[derive(Clone, Copy, PartialEq, Eq, Debug)]
pub struct Step {
    pub reply: Reply,
    /// The outputs after the event.
    pub outputs: Outputs,
}

/// What an event that a chassis took led to.
#[derive(Clone, Copy, PartialEq, Eq, Debug)]
pub struct ChassisStep {
    pub reply: Reply,
    /// The outputs of each controller after the event, all off for one that is not there or has had no RESET.
    pub outputs: [Outputs; CHASSIS_RECORDS],
}

/// The step in a chassis' answer: refusal 4 bits, reply 3, byte 8, a zero, and twelve bits for the outputs of each.
pub(crate) fn chassis_step(answer: u64) -> Result<ChassisStep, Error> {
    let high = (answer >> 32) as u32;
    if let number @ 1.. = (high >> 28) as u16 {
        return Err(Refusal::try_from(number)?.into());
    }
    if high & 0x1_0000 != 0 {
        return Err(Unnamed { what: "chassis answer", number: high }.into());
    }
    let reply = Reply::try_from(((high >> 25) as u8, (high >> 17) as u8))?;
    let outputs = |place: u32| Outputs::try_from((answer >> place) as u16 & 0xFFF);
    Ok(ChassisStep { reply, outputs: [outputs(36)?, outputs(24)?, outputs(12)?, outputs(0)?] })
}

/// The record of one word, refused or not.
///
/// ```
/// use dock::{Record, Reply};
///
/// // The last record of the paper's trace.
/// let record = Record::try_from([0x06, 0x2A, 0x41, 0x00])?;
/// assert_eq!(record.refusal, None);
/// assert_eq!(record.reply, Reply::Driven(0x15));
/// assert!(record.outputs.interrupt());
/// // A record ends in eight zero bits. What a later version may put there is not passed over.
/// assert!(Record::try_from([0x06, 0x2A, 0x41, 0x01]).is_err());
/// # Ok::<(), dock::Unnamed>(())
/// ```
#[derive(Clone, Copy, PartialEq, Eq, Debug)]
pub struct Record {
    pub refusal: Option<Refusal>,
    pub reply: Reply,
    /// The outputs after the word; those of the state as it was, where the word is refused.
    pub outputs: Outputs,
}

impl Record {
    /// The step of a word that was taken.
    pub fn step(self) -> Result<Step, Refusal> {
        match self.refusal {
            None => Ok(Step { reply: self.reply, outputs: self.outputs }),
            Some(refusal) => Err(refusal),
        }
    }
}

impl TryFrom<u32> for Record {
    type Error = Unnamed;

    /// Refusal 4 bits, reply 3, byte 8, outputs 9, eight zero bits, most significant first.
    fn try_from(bits: u32) -> Result<Record, Unnamed> {
        if bits & 0xFF != 0 {
            return Err(Unnamed { what: "record", number: bits });
        }
        let refusal = match (bits >> 28) as u16 {
            0 => None,
            number => Some(Refusal::try_from(number)?),
        };
        let reply = Reply::try_from(((bits >> 25 & 7) as u8, (bits >> 17) as u8))?;
        let outputs = Outputs::try_from((bits >> 8 & 0x1FF) as u16)?;
        Ok(Record { refusal, reply, outputs })
    }
}

impl TryFrom<[u8; RECORD_BYTES]> for Record {
    type Error = Unnamed;

    fn try_from(bytes: [u8; RECORD_BYTES]) -> Result<Record, Unnamed> {
        Record::try_from(u32::from_be_bytes(bytes))
    }
}

/// The records that a batch wrote. Bytes at the end that are too few for a record are left out.
pub fn records(bytes: &[u8]) -> impl Iterator<Item = Result<Record, Unnamed>> + '_ {
    bytes.chunks_exact(RECORD_BYTES).map(|four| Record::try_from([four[0], four[1], four[2], four[3]]))
}

#[cfg(test)]
mod tests {
    use super::*;

    #[test]
    fn an_answer_is_a_refusal_or_its_value() {
        assert_eq!(value(0x0000_C0BF), Ok(0xC0BF));
        assert_eq!(value(0x0005_0000), Err(Error::Refused(Refusal::TooManyWords)));
        assert_eq!(value(0x000C_0000), Err(Error::Unnamed(Unnamed { what: "refusal", number: 12 })));
        assert_eq!(value(0x1000_0000), Err(Error::Unnamed(Unnamed { what: "refusal", number: 0x1000 })));
        assert_eq!(numbers(0x0000_90BF), Ok((0x90, 0xBF)));
        assert_eq!(numbers(0x0100_0FBF), Ok((0x10F, 0xBF)));
        assert_eq!(numbers(0x0002_0000), Err(Error::Refused(Refusal::StrayBit)));
        assert_eq!(byte(0x0000_00FF), Ok(0xFF));
        assert_eq!(byte(0x0000_0100), Err(Error::Unnamed(Unnamed { what: "byte", number: 0x100 })));
        assert_eq!(held(0x0000_0000), Ok(None));
        assert_eq!(held(0x0000_0100), Ok(Some(0x00)));
        assert_eq!(held(0x0000_01FF), Ok(Some(0xFF)));
        assert_eq!(held(0x0001_0000), Err(Error::Refused(Refusal::UnfitState)));
        for number in [0x0001, 0x0200, 0x0301] {
            assert_eq!(held(number), Err(Error::Unnamed(Unnamed { what: "held byte", number })));
        }
    }

    #[test]
    fn a_chassis_answers_a_refusal_or_a_reply_and_four_sets_of_outputs() {
        let told = |answer| chassis_step(answer).map(|step| (step.reply, step.outputs.map(Outputs::bits)));
        assert_eq!(told(0x062A_0411_FF00_0088), Ok((Reply::Driven(0x15), [0x041, 0x1FF, 0x000, 0x088])));
        assert_eq!(told(0x0200_1001_1000_0088), Ok((Reply::Ack, [0x100, 0x110, 0x000, 0x088])));
        assert_eq!(told(0xB000_0000_0000_0000), Err(Refusal::TakenAddress.into()));
        let unnamed = |what, number| Err(Error::Unnamed(Unnamed { what, number }));
        assert_eq!(told(0xC000_0000_0000_0000), unnamed("refusal", 12));
        assert_eq!(told(0x0001_0000_0000_0000), unnamed("chassis answer", 0x1_0000));
        assert_eq!(told(0x0A00_0000_0000_0000), unnamed("reply and byte", 0x500));
        for place in [0, 12, 24, 36] {
            assert_eq!(told(0x200 << place), unnamed("set of outputs", 0x200));
        }
    }
}
