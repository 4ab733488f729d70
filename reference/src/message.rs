//! The ten messages: reading alone and writing (01, "Octets").

use crate::answer::Answer;
use crate::checksum;
use crate::net;
use crate::update::{self, Row};

pub const VERSION: u8 = 2;
/// "Message 10 to 2,048 octets."
pub const SHORTEST: usize = 10;
pub const LONGEST: usize = 2048;
/// "Reply buffer at least 2,048 octets."
pub const REPLY_BUFFER: usize = 2048;
/// Octet 1 of an Error; no Error is ever sent to a message that has it.
pub const ERROR_TYPE: u8 = 8;

/// The ten kinds.
#[derive(Clone, Copy, Debug, PartialEq, Eq, PartialOrd, Ord, Hash)]
pub enum Kind {
    Request,
    Confirm,
    Refuse,
    Cease,
    CeaseAck,
    Hello,
    IHeardYou,
    Poll,
    Update,
    Error,
}

impl Kind {
    pub const ALL: [Kind; 10] = [
        Kind::Request,
        Kind::Confirm,
        Kind::Refuse,
        Kind::Cease,
        Kind::CeaseAck,
        Kind::Hello,
        Kind::IHeardYou,
        Kind::Poll,
        Kind::Update,
        Kind::Error,
    ];

    pub fn type_and_code(self) -> (u8, u8) {
        match self {
            Kind::Request => (3, 0),
            Kind::Confirm => (3, 1),
            Kind::Refuse => (3, 2),
            Kind::Cease => (3, 3),
            Kind::CeaseAck => (3, 4),
            Kind::Hello => (5, 0),
            Kind::IHeardYou => (5, 1),
            Kind::Poll => (2, 0),
            Kind::Update => (1, 0),
            Kind::Error => (ERROR_TYPE, 0),
        }
    }

    pub fn from_type_and_code(pair: (u8, u8)) -> Option<Kind> {
        Kind::ALL
            .into_iter()
            .find(|kind| kind.type_and_code() == pair)
    }

    /// The status column.
    pub fn allows_status(self, status: u8) -> bool {
        match self {
            Kind::Request | Kind::Confirm | Kind::Hello | Kind::IHeardYou | Kind::Poll => {
                status <= 2
            }
            Kind::Refuse | Kind::Cease | Kind::CeaseAck => status == 0 || (3..=7).contains(&status),
            // "0 to 2, also plus 128": the unsolicited bit may be set beside the state.
            Kind::Update | Kind::Error => status & 0x7F <= 2,
        }
    }

    /// The length column.
    pub fn allows_length(self, length: usize) -> bool {
        match self {
            Kind::Request | Kind::Confirm => length == 14,
            Kind::Refuse | Kind::Cease | Kind::CeaseAck | Kind::Hello | Kind::IHeardYou => {
                length == 10
            }
            Kind::Poll => length == 16,
            Kind::Update => length >= 16,
            Kind::Error => length == 24,
        }
    }

    /// Commands ask for something (RFC 904, section 2); outside Idle they set R.
    pub fn is_command(self) -> bool {
        matches!(self, Kind::Request | Kind::Cease | Kind::Hello | Kind::Poll)
    }

    /// "Confirm, Refuse, Cease-ack, I-H-U and Update must carry S."
    pub fn must_carry_s(self) -> bool {
        matches!(
            self,
            Kind::Confirm | Kind::Refuse | Kind::CeaseAck | Kind::IHeardYou | Kind::Update
        )
    }
}

/// The hello and poll interval of a Request or Confirm.
#[derive(Clone, Copy, Debug, PartialEq, Eq)]
pub struct Intervals {
    pub hello: u16,
    pub poll: u16,
}

/// "A message, once read, is one of ten kinds, each carrying its own fields."
#[derive(Clone, Debug, PartialEq, Eq)]
pub enum Body {
    Request(Intervals),
    Confirm(Intervals),
    Refuse,
    Cease,
    CeaseAck,
    Hello,
    IHeardYou,
    Poll { net: u32 },
    Update { net: u32, rows: Vec<Row> },
    Error { reason: u16, header: [u8; 12] },
}

/// A message: what every header carries, and the kind's own fields.
#[derive(Clone, Debug, PartialEq, Eq)]
pub struct Message {
    pub status: u8,
    pub as_number: u16,
    pub sequence: u16,
    pub body: Body,
}

impl Message {
    pub fn kind(&self) -> Kind {
        match self.body {
            Body::Request(_) => Kind::Request,
            Body::Confirm(_) => Kind::Confirm,
            Body::Refuse => Kind::Refuse,
            Body::Cease => Kind::Cease,
            Body::CeaseAck => Kind::CeaseAck,
            Body::Hello => Kind::Hello,
            Body::IHeardYou => Kind::IHeardYou,
            Body::Poll { .. } => Kind::Poll,
            Body::Update { .. } => Kind::Update,
            Body::Error { .. } => Kind::Error,
        }
    }
}

/// Checks 6 to 8: size, version, checksum.
pub fn check_frame(octets: &[u8]) -> Result<(), Answer> {
    if octets.len() < SHORTEST || octets.len() > LONGEST {
        return Err(Answer::MessageSize);
    }
    if octets[0] != VERSION {
        return Err(Answer::WrongVersion);
    }
    // The field must equal the number: a sum over all words would pass FFFF for 0000.
    if number16(octets, 4) != checksum::checksum(octets) {
        return Err(Answer::WrongChecksum);
    }
    Ok(())
}

/// Checks 10 to 12 on a message that passed 6 to 8: kind, status, length.
pub fn check_kind(octets: &[u8]) -> Result<Kind, Answer> {
    let Some(kind) = Kind::from_type_and_code((octets[1], octets[2])) else {
        return Err(Answer::UnknownKind);
    };
    if !kind.allows_status(octets[3]) {
        return Err(Answer::BadStatus);
    }
    if !kind.allows_length(octets.len()) {
        return Err(Answer::WrongLength);
    }
    Ok(kind)
}

/// Checks 14 and 15 on an Update that passed 6 to 12: its rows.
pub fn read_rows(octets: &[u8], common_net: u32) -> Result<Vec<Row>, Answer> {
    if !net::is_net(common_net) || number32(octets, 12) != common_net {
        return Err(Answer::BadUpdate);
    }
    update::read_blocks(&octets[16..], octets[10], octets[11], common_net)
}

/// The fields of a message of this kind that passed 6 to 12. The rows of an Update are those
/// given: they have been read already, or are none where the body is not looked at.
pub fn fields(kind: Kind, octets: &[u8], rows: Vec<Row>) -> Message {
    let intervals = || Intervals {
        hello: number16(octets, 10),
        poll: number16(octets, 12),
    };
    let body = match kind {
        Kind::Request => Body::Request(intervals()),
        Kind::Confirm => Body::Confirm(intervals()),
        Kind::Refuse => Body::Refuse,
        Kind::Cease => Body::Cease,
        Kind::CeaseAck => Body::CeaseAck,
        Kind::Hello => Body::Hello,
        Kind::IHeardYou => Body::IHeardYou,
        // "Poll's reserved octets are ignored."
        Kind::Poll => Body::Poll {
            net: number32(octets, 12),
        },
        Kind::Update => Body::Update {
            net: number32(octets, 12),
            rows,
        },
        Kind::Error => Body::Error {
            reason: number16(octets, 10),
            header: first_twelve(&octets[12..]),
        },
    };
    Message {
        status: octets[3],
        as_number: as_number(octets),
        sequence: sequence(octets),
        body,
    }
}

/// Reading alone: "given the common net, makes 6 to 8, 10 to 12, 14 and 15 as if in Up, without
/// reply (14 for any Update if that net is bad)".
pub fn read(octets: &[u8], common_net: u32) -> Result<Message, Answer> {
    check_frame(octets)?;
    let kind = check_kind(octets)?;
    let rows = match kind {
        Kind::Update => read_rows(octets, common_net)?,
        _ => Vec::new(),
    };
    Ok(fields(kind, octets, rows))
}

/// Whether the writer takes this meaning: it "refuses 16 for a field the reader would refuse or
/// never gives, more than 128 rows, or an internal row after an external one".
pub fn can_write(message: &Message) -> bool {
    let body = match &message.body {
        Body::Update { net, rows } => update::can_write(*net, rows),
        _ => true,
    };
    body && message.kind().allows_status(message.status)
}

/// Writing: "makes 3, then 16"; the answer is the length. Loose numbers, which are no rows of the
/// meaning, the reader never gives.
pub fn write(message: &Message, loose: &[u32], buffer: &mut [u8]) -> Result<usize, Answer> {
    if buffer.len() < REPLY_BUFFER {
        return Err(Answer::ShortBuffer);
    }
    if !can_write(message) || !loose.is_empty() {
        return Err(Answer::BadSetting);
    }
    let octets = encode(message);
    buffer[..octets.len()].copy_from_slice(&octets);
    Ok(octets.len())
}

/// The octets of a meaning that [`can_write`] takes.
pub fn encode(message: &Message) -> Vec<u8> {
    let (message_type, code) = message.kind().type_and_code();
    let mut octets = vec![VERSION, message_type, code, message.status, 0, 0];
    octets.extend(message.as_number.to_be_bytes());
    octets.extend(message.sequence.to_be_bytes());
    match &message.body {
        Body::Request(intervals) | Body::Confirm(intervals) => {
            octets.extend(intervals.hello.to_be_bytes());
            octets.extend(intervals.poll.to_be_bytes());
        }
        Body::Refuse | Body::Cease | Body::CeaseAck | Body::Hello | Body::IHeardYou => {}
        Body::Poll { net } => {
            octets.extend([0, 0]);
            octets.extend(net.to_be_bytes());
        }
        Body::Update { net, rows } => {
            let (internal, external, blocks) = update::write_blocks(*net, rows);
            octets.extend([internal, external]);
            octets.extend(net.to_be_bytes());
            octets.extend(blocks);
        }
        Body::Error { reason, header } => {
            octets.extend(reason.to_be_bytes());
            octets.extend(header);
        }
    }
    checksum::seal(&mut octets);
    octets
}

/// The AS of a message of at least 10 octets.
pub fn as_number(octets: &[u8]) -> u16 {
    number16(octets, 6)
}

/// The sequence number of a message of at least 10 octets.
pub fn sequence(octets: &[u8]) -> u16 {
    number16(octets, 8)
}

/// "The first 12 octets, zero-filled."
pub fn first_twelve(octets: &[u8]) -> [u8; 12] {
    let mut first = [0; 12];
    let kept = octets.len().min(first.len());
    first[..kept].copy_from_slice(&octets[..kept]);
    first
}

/// "All numbers are big-endian."
fn number16(octets: &[u8], at: usize) -> u16 {
    u16::from_be_bytes([octets[at], octets[at + 1]])
}

fn number32(octets: &[u8], at: usize) -> u32 {
    u32::from_be_bytes([octets[at], octets[at + 1], octets[at + 2], octets[at + 3]])
}
