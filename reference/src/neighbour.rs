//! The state machine of one neighbour (01, "One neighbour"; 02, L3, L5 to L7; RFC 904, sections 3
//! and 4).

use crate::message::{Body, Intervals, Kind, Message};
use crate::update::Row;

/// Smallest interval between Hellos we take, seconds.
pub const P1: u16 = 30;
/// Smallest interval between Polls we take.
pub const P2: u16 = 120;
/// Between repeats of a Request or Cease.
pub const P3: u16 = 30;
/// How long a neighbour is kept after an indication.
pub const P4: u16 = 3600;
/// How long a neighbour is kept without one.
pub const P5: u16 = 120;

/// "A Hello less than 30 ticks, or a Poll less than 120 ticks, after the last one" comes too soon
/// (02, L5).
pub const HELLO_TICKS: u8 = 30;
pub const POLL_TICKS: u8 = 120;
/// Where both counts of ticks hold.
pub const MOST_TICKS: u8 = 120;

/// "Unacceptable: hello above 120, poll above 480".
pub const LONGEST_HELLO: u16 = 120;
pub const LONGEST_POLL: u16 = 480;

/// Status words of acquisition messages (RFC 904, A.1).
pub const ADMINISTRATIVELY_PROHIBITED: u8 = 4;
pub const GOING_DOWN: u8 = 5;
pub const PARAMETER_PROBLEM: u8 = 6;
pub const PROTOCOL_VIOLATION: u8 = 7;

/// Capabilities, which are also the statuses of Request and Confirm.
pub const EITHER_MODE: u8 = 0;
pub const ACTIVE_ONLY: u8 = 1;
pub const PASSIVE_ONLY: u8 = 2;

/// Statuses of reachability messages (RFC 904, A.2).
pub const STATUS_UP: u8 = 1;
pub const STATUS_DOWN: u8 = 2;
/// What an Update's status has besides if nothing asked for it (RFC 904, A.4).
pub const UNSOLICITED: u8 = 128;

/// Error reasons (RFC 904, A.5).
pub const UNSPECIFIED: u16 = 0;
pub const BAD_HEADER: u16 = 1;
pub const BAD_DATA: u16 = 2;
pub const INFO_UNAVAILABLE: u16 = 3;
pub const EXCESSIVE_POLLING_RATE: u16 = 4;

/// The five states of RFC 904.
#[derive(Clone, Copy, Debug, Default, PartialEq, Eq, PartialOrd, Ord, Hash)]
pub enum NeighbourState {
    #[default]
    Idle,
    Acquisition,
    Down,
    Up,
    Cease,
}

impl NeighbourState {
    pub const ALL: [NeighbourState; 5] = [
        NeighbourState::Idle,
        NeighbourState::Acquisition,
        NeighbourState::Down,
        NeighbourState::Up,
        NeighbourState::Cease,
    ];

    /// Down and Up: the neighbour is acquired, reachability runs, Errors may be sent.
    pub fn is_acquired(self) -> bool {
        matches!(self, NeighbourState::Down | NeighbourState::Up)
    }
}

/// Seconds spent in each of the five states since the neighbour was added (02, L7), a tick being a
/// second.
#[derive(Clone, Copy, Debug, Default, PartialEq, Eq)]
pub struct Seconds {
    pub idle: u32,
    pub acquisition: u32,
    pub down: u32,
    pub up: u32,
    pub cease: u32,
}

impl Seconds {
    /// "With a sum of at most 4,294,967,295."
    pub const MOST: u64 = 4_294_967_295;

    /// The five counts, in the order of the states.
    pub fn all(self) -> [u32; 5] {
        NeighbourState::ALL.map(|state| self.of(state))
    }

    pub fn of(self, state: NeighbourState) -> u32 {
        let mut seconds = self;
        *seconds.of_mut(state)
    }

    pub fn of_mut(&mut self, state: NeighbourState) -> &mut u32 {
        match state {
            NeighbourState::Idle => &mut self.idle,
            NeighbourState::Acquisition => &mut self.acquisition,
            NeighbourState::Down => &mut self.down,
            NeighbourState::Up => &mut self.up,
            NeighbourState::Cease => &mut self.cease,
        }
    }

    /// All of them; five counts of 32 bits may add up to more than such a count holds.
    pub fn sum(self) -> u64 {
        self.all().into_iter().map(u64::from).sum()
    }

    /// Whether no tick can be counted any more.
    pub fn is_full(self) -> bool {
        self.sum() >= Seconds::MOST
    }
}

/// M, the hello polling mode; none where it is 0.
#[derive(Clone, Copy, Debug, Default, PartialEq, Eq, PartialOrd, Ord, Hash)]
pub enum Mode {
    #[default]
    None,
    Active,
    Passive,
}

/// One slot: a neighbour, or all zero when free. The address 0 marks a free slot, since add
/// refuses it.
#[derive(Clone, Copy, Debug, Default, PartialEq, Eq)]
pub struct Neighbour {
    pub address: u32,
    pub as_number: u16,
    pub state: NeighbourState,
    /// S.
    pub send_sequence: u16,
    /// R.
    pub receive_sequence: u16,
    /// T1.
    pub hello_interval: u16,
    /// T2.
    pub poll_interval: u16,
    /// M.
    pub mode: Mode,
    pub t1: u16,
    pub t2: u16,
    pub t3: u16,
    /// The last four intervals, the newest in the lowest bit.
    pub register: u8,
    pub heard: u8,
    /// The status of the Cease we repeat.
    pub cause: u8,
    pub row_count: u16,
    /// Ticks since the last Hello carried out in this acquisition, and since the last Poll: at most
    /// [`MOST_TICKS`], and as many if there was none.
    pub since_hello: u8,
    pub since_poll: u8,
    /// What no event but a tick changes.
    pub seconds: Seconds,
}

impl Neighbour {
    /// A neighbour just added: Idle, only address and AS set.
    pub fn idle(address: u32, as_number: u16) -> Neighbour {
        Neighbour {
            address,
            as_number,
            ..Neighbour::default()
        }
    }

    pub fn is_used(&self) -> bool {
        self.address != 0
    }

    /// What this neighbour is in Idle: "these counts survive Idle", nothing else but address and AS
    /// does.
    pub fn in_idle(&self) -> Neighbour {
        Neighbour {
            seconds: self.seconds,
            ..Neighbour::idle(self.address, self.as_number)
        }
    }

    /// Check 21: whether a message of this kind comes too soon after the last. "The rule holds in
    /// Down and Up only."
    pub(crate) fn is_too_soon_for(&self, kind: Kind) -> bool {
        self.state.is_acquired()
            && match kind {
                Kind::Hello => self.since_hello < HELLO_TICKS,
                Kind::Poll => self.since_poll < POLL_TICKS,
                _ => false,
            }
    }
}

/// What the machine needs to know of our own end.
#[derive(Clone, Copy)]
pub struct Local<'a> {
    pub as_number: u16,
    pub capability: u8,
    pub net: u32,
    /// Whether an Idle neighbour's stray messages draw no Cease.
    pub is_quiet: bool,
    /// The rows with which a Poll is answered.
    pub home: &'a [Row],
}

/// An event. A message event holds the decoded message, beside the octets an Error quotes.
#[derive(PartialEq, Eq)]
pub enum Event<'a> {
    Message {
        message: &'a Message,
        quote: [u8; 12],
    },
    Start,
    Stop,
    Tick,
}

/// What becomes of the neighbour's rows in the table.
#[derive(Clone, Debug, PartialEq, Eq)]
pub enum RowChange {
    Keep,
    /// All of the slot's 128 rows become zero.
    Clear,
    /// These rows, the rest zero.
    Replace(Vec<Row>),
}

/// What an event does.
#[derive(Clone, Debug, PartialEq, Eq)]
pub struct Transition {
    pub neighbour: Neighbour,
    /// At most two messages.
    pub sent: Vec<Message>,
    pub rows: RowChange,
}

/// T1, T2 and M as a Request or Confirm gives them.
#[derive(Clone, Copy, Debug, PartialEq, Eq)]
pub struct Terms {
    pub hello_interval: u16,
    pub poll_interval: u16,
    pub mode: Mode,
}

/// The terms of a Request or Confirm, none if it is unacceptable: "hello above 120, poll above
/// 480, or both ends passive only".
pub fn terms(
    own_as: u16,
    capability: u8,
    peer_as: u16,
    peer_status: u8,
    intervals: Intervals,
) -> Option<Terms> {
    let both_passive = capability == PASSIVE_ONLY && peer_status == PASSIVE_ONLY;
    if intervals.hello > LONGEST_HELLO || intervals.poll > LONGEST_POLL || both_passive {
        return None;
    }
    Some(Terms {
        hello_interval: P1.max(intervals.hello) + 2,
        poll_interval: P2.max(intervals.poll) + 2,
        mode: chosen_mode(own_as, capability, peer_as, peer_status),
    })
}

/// "If our capability is 1 or 2, that; else peer 1 gives passive, peer 2 active, peer 0 active
/// for the smaller AS."
fn chosen_mode(own_as: u16, capability: u8, peer_as: u16, peer_status: u8) -> Mode {
    match (capability, peer_status) {
        (ACTIVE_ONLY, _) => Mode::Active,
        (PASSIVE_ONLY, _) => Mode::Passive,
        (_, ACTIVE_ONLY) => Mode::Passive,
        (_, PASSIVE_ONLY) => Mode::Active,
        _ if own_as < peer_as => Mode::Active,
        _ => Mode::Passive,
    }
}

/// An Error from us: "carries R and the first 12 octets, zero-filled", status 2 in Down and 1 in
/// Up.
pub fn error_message(local: Local, neighbour: &Neighbour, reason: u16, quote: [u8; 12]) -> Message {
    Message {
        status: reachability_status(neighbour.state),
        as_number: local.as_number,
        sequence: neighbour.receive_sequence,
        body: Body::Error {
            reason,
            header: quote,
        },
    }
}

/// "We send status 2 in Down and 1 in Up on Hello, I-H-U, Poll, Update and Error."
fn reachability_status(state: NeighbourState) -> u8 {
    match state {
        NeighbourState::Up => STATUS_UP,
        _ => STATUS_DOWN,
    }
}

/// One event of one neighbour of a well-formed state, every check having passed.
pub(crate) fn transition(local: Local, neighbour: &Neighbour, event: Event) -> Transition {
    let mut machine = Machine {
        local,
        neighbour: *neighbour,
        sent: Vec::new(),
        rows: RowChange::Keep,
    };
    match event {
        Event::Message { message, quote } => machine.receive(message, quote),
        Event::Start => machine.start(),
        Event::Stop => machine.stop(),
        Event::Tick => machine.tick(),
    }
    Transition {
        neighbour: machine.neighbour,
        sent: machine.sent,
        rows: machine.rows,
    }
}

struct Machine<'a> {
    local: Local<'a>,
    neighbour: Neighbour,
    sent: Vec<Message>,
    rows: RowChange,
}

impl Machine<'_> {
    fn receive(&mut self, message: &Message, quote: [u8; 12]) {
        let before = self.neighbour;
        if before.state == NeighbourState::Idle && is_stray(message.kind()) {
            return self.stray();
        }
        // "Outside Idle every command that passes its checks sets R first."
        if before.state != NeighbourState::Idle && message.kind().is_command() {
            self.neighbour.receive_sequence = message.sequence;
        }
        match &message.body {
            Body::Request(intervals) => self.request(message, *intervals),
            Body::Confirm(intervals) => self.confirm(message, *intervals),
            Body::Refuse => {
                if before.state == NeighbourState::Acquisition {
                    self.enter_idle();
                }
            }
            Body::Cease => {
                self.send_response(0, message.sequence, Body::CeaseAck);
                self.enter_idle();
            }
            Body::CeaseAck => {
                if before.state == NeighbourState::Cease {
                    self.enter_idle();
                }
            }
            Body::Hello => {
                if before.state.is_acquired() {
                    self.neighbour.since_hello = 0;
                    let status = reachability_status(before.state);
                    self.send_response(status, message.sequence, Body::IHeardYou);
                }
            }
            Body::IHeardYou => {}
            Body::Poll { net } => self.poll(message, *net, quote),
            Body::Update { rows, .. } => {
                if before.state == NeighbourState::Up {
                    self.neighbour.row_count = rows.len() as u16;
                    self.rows = RowChange::Replace(rows.clone());
                }
            }
            // "An Error received changes nothing."
            Body::Error { .. } => {}
        }
        if before.state.is_acquired() && is_indication(before.mode, message) {
            self.neighbour.heard = 1;
            self.neighbour.t3 = P4;
        }
    }

    /// A stray message in Idle (02, L6): the Cease carries 0, which S is there. It is not repeated,
    /// so that its status is kept as no cause, and nothing else changes either.
    fn stray(&mut self) {
        if !self.local.is_quiet {
            self.send_command(PROTOCOL_VIOLATION, Body::Cease);
        }
    }

    fn request(&mut self, message: &Message, intervals: Intervals) {
        let terms = self.terms(message, intervals);
        match (self.neighbour.state, terms) {
            (NeighbourState::Cease, _) => self.send_cease(),
            (NeighbourState::Idle, Some(terms)) => {
                // "Leaving Idle sets S to 0, and R ... to the Request's number."
                self.neighbour.send_sequence = 0;
                self.neighbour.receive_sequence = message.sequence;
                self.send_confirm(message.sequence);
                self.enter_down(terms);
            }
            (_, Some(terms)) => {
                self.send_confirm(message.sequence);
                self.enter_down(terms);
            }
            (NeighbourState::Idle, None) => {
                self.send_response(PARAMETER_PROBLEM, message.sequence, Body::Refuse);
            }
            (NeighbourState::Acquisition, None) => self.enter_idle(),
            (NeighbourState::Down | NeighbourState::Up, None) => {
                self.enter_cease(PARAMETER_PROBLEM)
            }
        }
    }

    fn confirm(&mut self, message: &Message, intervals: Intervals) {
        if self.neighbour.state != NeighbourState::Acquisition {
            return;
        }
        match self.terms(message, intervals) {
            Some(terms) => self.enter_down(terms),
            None => self.enter_idle(),
        }
    }

    fn poll(&mut self, message: &Message, net: u32, quote: [u8; 12]) {
        // In Down too, where nothing else is done, and whatever net it asks for.
        if self.neighbour.state.is_acquired() {
            self.neighbour.since_poll = 0;
        }
        if self.neighbour.state != NeighbourState::Up {
            return;
        }
        if net == self.local.net {
            let body = Body::Update {
                net,
                rows: self.local.home.to_vec(),
            };
            self.send_response(STATUS_UP, message.sequence, body);
        } else {
            // R is the Poll's number by now.
            let error = error_message(self.local, &self.neighbour, INFO_UNAVAILABLE, quote);
            self.sent.push(error);
        }
    }

    fn start(&mut self) {
        match self.neighbour.state {
            NeighbourState::Cease => {}
            // S and R are 0 in Idle, so leaving it by Start need not set them.
            _ => {
                self.leave_up();
                self.neighbour.state = NeighbourState::Acquisition;
                self.settle_unacquired();
                self.send_request();
            }
        }
    }

    fn stop(&mut self) {
        match self.neighbour.state {
            NeighbourState::Idle => {}
            NeighbourState::Acquisition | NeighbourState::Cease => self.enter_idle(),
            NeighbourState::Down | NeighbourState::Up => self.enter_cease(GOING_DOWN),
        }
    }

    fn tick(&mut self) {
        let before = self.neighbour.state;
        // "A tick carried out belongs to the state before it", Idle's too.
        *self.neighbour.seconds.of_mut(before) += 1;
        if before == NeighbourState::Idle {
            return;
        }
        self.count_tick();
        self.neighbour.t3 -= 1;
        if self.neighbour.t3 == 0 {
            self.stop();
            return;
        }
        self.neighbour.t1 -= 1;
        if self.neighbour.t1 == 0 {
            match before {
                NeighbourState::Acquisition => {
                    self.send_request();
                    self.neighbour.t1 = P3;
                }
                NeighbourState::Cease => {
                    self.send_cease();
                    self.neighbour.t1 = P3;
                }
                _ => self.judge_reachability(),
            }
        }
        // A tick that enters Up takes nothing from t2, one that leaves it has zeroed t2.
        if before == NeighbourState::Up && self.neighbour.state == NeighbourState::Up {
            self.neighbour.t2 -= 1;
            if self.neighbour.t2 == 0 {
                self.send_poll();
            }
        }
    }

    /// "Every tick carried out outside Idle adds one to each below 120": also the one that t3 ends,
    /// where Idle then zeroes both.
    fn count_tick(&mut self) {
        let Neighbour {
            since_hello,
            since_poll,
            ..
        } = &mut self.neighbour;
        for count in [since_hello, since_poll] {
            *count = (*count + 1).min(MOST_TICKS);
        }
    }

    /// t1 came to 0 in Down or Up.
    fn judge_reachability(&mut self) {
        let neighbour = &mut self.neighbour;
        neighbour.register = (neighbour.register << 1 | neighbour.heard) & 0b1111;
        neighbour.heard = 0;
        neighbour.t1 = neighbour.hello_interval;
        let ones = neighbour.register.count_ones();
        let (up_from, down_from) = match neighbour.mode {
            Mode::Active => (3, 1),
            _ => (1, 0),
        };
        let enters_up = neighbour.state == NeighbourState::Down && ones >= up_from;
        let goes_down = neighbour.state == NeighbourState::Up && ones <= down_from;
        if enters_up {
            self.neighbour.state = NeighbourState::Up;
        }
        if goes_down {
            // "Going Down by a tick keeps the register."
            self.leave_up();
            self.neighbour.state = NeighbourState::Down;
        }
        self.send_hello_if_active();
        if enters_up {
            self.send_poll();
        }
    }

    fn terms(&self, message: &Message, intervals: Intervals) -> Option<Terms> {
        terms(
            self.local.as_number,
            self.local.capability,
            self.neighbour.as_number,
            message.status,
            intervals,
        )
    }

    /// A (its Confirm is already sent) and B: "T1, T2, M set, register and heard 0, t1 = T1,
    /// t3 = P5, then Hello if active"; by 02's L5 both counts of ticks "set to 120".
    fn enter_down(&mut self, terms: Terms) {
        self.leave_up();
        let neighbour = &mut self.neighbour;
        neighbour.state = NeighbourState::Down;
        neighbour.hello_interval = terms.hello_interval;
        neighbour.poll_interval = terms.poll_interval;
        neighbour.mode = terms.mode;
        neighbour.register = 0;
        neighbour.heard = 0;
        neighbour.t1 = terms.hello_interval;
        neighbour.t3 = P5;
        neighbour.since_hello = MOST_TICKS;
        neighbour.since_poll = MOST_TICKS;
        self.send_hello_if_active();
    }

    /// "Cease n: enter Cease, send it with status n, keep n as cause for repeats."
    fn enter_cease(&mut self, cause: u8) {
        self.leave_up();
        self.neighbour.state = NeighbourState::Cease;
        self.settle_unacquired();
        self.neighbour.cause = cause;
        self.send_cease();
    }

    /// "Entering Acquisition or Cease, or Start in Acquisition: t1 = P3, t3 = P5, and T1, T2, M,
    /// register and heard 0; S and R stay." So do the counts of ticks, which only Idle zeroes.
    fn settle_unacquired(&mut self) {
        let neighbour = &mut self.neighbour;
        neighbour.t1 = P3;
        neighbour.t3 = P5;
        neighbour.hello_interval = 0;
        neighbour.poll_interval = 0;
        neighbour.mode = Mode::None;
        neighbour.register = 0;
        neighbour.heard = 0;
    }

    /// "Entering Idle zeroes all but address and AS", and but the seconds.
    fn enter_idle(&mut self) {
        self.leave_up();
        self.neighbour = self.neighbour.in_idle();
    }

    /// "Leaving Up zeroes t2 and the neighbour's rows and count." Outside Up nothing is done.
    fn leave_up(&mut self) {
        if self.neighbour.state == NeighbourState::Up {
            self.neighbour.t2 = 0;
            self.neighbour.row_count = 0;
            self.rows = RowChange::Clear;
        }
    }

    /// "Commands carry S, all messages our AS."
    fn send_command(&mut self, status: u8, body: Body) {
        self.sent.push(Message {
            status,
            as_number: self.local.as_number,
            sequence: self.neighbour.send_sequence,
            body,
        });
    }

    /// "Responses carry R; in Idle they carry the command's number." Either way that is the
    /// number of the command being answered.
    fn send_response(&mut self, status: u8, sequence: u16, body: Body) {
        self.sent.push(Message {
            status,
            as_number: self.local.as_number,
            sequence,
            body,
        });
    }

    /// "Our capability, 30 and 120 on Request and Confirm."
    fn send_request(&mut self) {
        let body = Body::Request(Intervals {
            hello: P1,
            poll: P2,
        });
        self.send_command(self.local.capability, body);
    }

    fn send_confirm(&mut self, sequence: u16) {
        let body = Body::Confirm(Intervals {
            hello: P1,
            poll: P2,
        });
        self.send_response(self.local.capability, sequence, body);
    }

    fn send_cease(&mut self) {
        self.send_command(self.neighbour.cause, Body::Cease);
    }

    fn send_hello_if_active(&mut self) {
        if self.neighbour.mode == Mode::Active {
            self.send_command(reachability_status(self.neighbour.state), Body::Hello);
        }
    }

    /// "S goes up by one, 65,535 to 0, just before each Poll only"; t2 starts anew.
    fn send_poll(&mut self) {
        self.neighbour.send_sequence = self.neighbour.send_sequence.wrapping_add(1);
        self.neighbour.t2 = self.neighbour.poll_interval;
        let net = self.local.net;
        self.send_command(STATUS_UP, Body::Poll { net });
    }
}

/// What Idle answers with Cease (02, L6; RFC 904, section 3.4): such as only a neighbour sends that
/// thinks it is acquired, or about to be.
pub(crate) fn is_stray(kind: Kind) -> bool {
    STRAYS.contains(&kind)
}

pub const STRAYS: [Kind; 6] = [
    Kind::Confirm,
    Kind::Refuse,
    Kind::Hello,
    Kind::IHeardYou,
    Kind::Poll,
    Kind::Update,
];

/// "Active mode, a Confirm, I-H-U or Update carried out; passive mode, a Hello or Poll carried
/// out with status 1 (section 3.3)." By 02's L3 also, "in passive mode, an Update carried out in
/// Down or Up whose status without the unsolicited bit is 1 is an indication too. Active mode
/// stays as it was."
fn is_indication(mode: Mode, message: &Message) -> bool {
    match (mode, message.kind()) {
        (Mode::Active, Kind::Confirm | Kind::IHeardYou | Kind::Update) => true,
        (Mode::Passive, Kind::Hello | Kind::Poll) => message.status == STATUS_UP,
        (Mode::Passive, Kind::Update) => message.status & !UNSOLICITED == STATUS_UP,
        _ => false,
    }
}
