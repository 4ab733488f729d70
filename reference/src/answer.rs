//! The answer numbers (01, "Answer numbers").

/// What a call answers. The discriminant is 01's number; checks go in this order, but for those of
/// 02 whose place is named, and the first that fails answers.
#[derive(Clone, Copy, Debug, PartialEq, Eq, PartialOrd, Ord, Hash)]
#[repr(u8)]
pub enum Answer {
    /// The call was carried out, even if it changes nothing.
    Done = 0,
    /// State not well formed.
    StateNotWellFormed = 1,
    /// Table not 3,072 numbers; in a listing, also a used row's third number above 511.
    BadTable = 2,
    /// Reply or listing buffer too short.
    ShortBuffer = 3,
    /// Message call: bad home list.
    BadHomeList = 4,
    /// No used slot has this address.
    UnknownAddress = 5,
    /// Message below 10 or above 2,048 octets.
    MessageSize = 6,
    /// Version not 2.
    WrongVersion = 7,
    /// Checksum field wrong.
    WrongChecksum = 8,
    /// AS is not this neighbour's.
    WrongAs = 9,
    /// Unknown type and code pair.
    UnknownKind = 10,
    /// Status not allowed.
    BadStatus = 11,
    /// Length wrong for the type.
    WrongLength = 12,
    /// Response out of sequence.
    OutOfSequence = 13,
    /// Update in Up with a bad body or a net that is not the common net.
    BadUpdate = 14,
    /// Such an Update, otherwise good, of more than 128 rows.
    TooManyRows = 15,
    /// Bad setting; writer: bad meaning.
    BadSetting = 16,
    /// Add: no free slot.
    NoFreeSlot = 17,
    /// Remove: neighbour not Idle.
    NotIdle = 18,
    /// A bad line of a recording (02, L1). It comes before all others: nothing is called for it.
    BadLine = 19,
    /// A state block that has not its length (02, L4): before 1.
    BlockLength = 20,
    /// A Hello or Poll too soon after the last one (02, L5): after 13.
    TooQuick = 21,
    /// A tick when the seconds counted are as many as may be (02, L7): after 5.
    NoMoreSeconds = 22,
}

impl Answer {
    /// 01's number.
    pub fn number(self) -> u8 {
        self as u8
    }

    pub fn is_refusal(self) -> bool {
        self != Answer::Done
    }
}
