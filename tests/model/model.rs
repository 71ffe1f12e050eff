//! An independent model of the COBS link of document 01 (settings ZXE and PRE, two lanes, two
//! receive areas), with the 32-bit check, the agreed limit of a packet, the restart, the held
//! octets' register and plain PPP of document 02, slips 1, 11, 4, 8 and 5. Written from these
//! documents, the readings of 02 that were agreed on, and the exercise driver's format alone. "01"
//! and "02" in the comments are the documents, and "step n" is 01's numbered step. A comment
//! `Reading:` marks a place where the words were weighed.
//!
//!     rustc -C opt-level=3 --edition 2021 -o model model.rs
//!
//!     model capture    raw octets -> one line a report (16 bits, packets to 2,048, plain PPP read)
//!     model count      raw octets -> the fifteen counts of the tally (the same)
//!     model exercise   commands of docs/EXERCISE.md -> one line an answer

use std::io::{self, Read, Write};

// ---------------------------------------------------------------------------------------------
// Values of the field
// ---------------------------------------------------------------------------------------------

/// Closes a frame.
const FLAG: u8 = 0x7E;
/// Stands for 7E inside a frame, in codes and in data.
const STAND_IN: u8 = 0x00;
/// First octet of a resumed frame.
const RESUME: u8 = 0xD1;
/// First octet of a frame that a restarted peer sends: refused, or the first one in plain PPP.
const RESTART: u8 = 0xFF;
/// In plain PPP the octet behind it is changed by ESCAPE_BIT.
const ESCAPE: u8 = 0x7D;
const ESCAPE_BIT: u8 = 0x20;
/// The code sent only to be broken off by the flag that follows it.
const BREAK_CODE: u8 = 0x02;
/// Code of a full block: 207 data octets and no zero.
const FULL_CODE: u8 = 0xD0;
/// Run codes D3-DF are this and the count of zeros.
const RUN_BASE: u8 = 0xD0;
/// Codes E0-FE are this and the count of data octets.
const PAIR_BASE: u8 = 0xE0;

/// Data octets of a full block.
const FULL_BLOCK: usize = 207;
/// Most data octets of a block that ends in two zeros.
const PAIR_BLOCK: usize = 30;
/// Fewest and most zeros of a run code.
const RUN_FEWEST: usize = 3;
const RUN_MOST: usize = 15;

/// Fewest octets of a packet, whatever was agreed.
const PACKET_SHORTEST: usize = 2;

/// Numbers of 01's refusal table, and of those that 02 adds.
mod refusal {
    pub const PACKET_LENGTH: u8 = 1;
    pub const AREA_SHORT: u8 = 2;
    pub const STATE: u8 = 3;
    pub const LANE_HOLDS: u8 = 4;
    pub const BEGINS_FF: u8 = 5;
    pub const NOT_AGREED: u8 = 6;
    pub const NO_SUCH_CODE: u8 = 7;
    pub const NOTHING_HELD: u8 = 8;
    pub const RESUME_ALONE: u8 = 9;
    pub const TOO_MUCH: u8 = 10;
    pub const ENDS_IN_BLOCK: u8 = 11;
    pub const LAST_FULL: u8 = 12;
    pub const TOO_LITTLE: u8 = 13;
    pub const FCS: u8 = 14;
    pub const ESCAPE_OPEN: u8 = 18;
    pub const SENDING_MAP: u8 = 19;
    pub const HELD_CHANGED: u8 = 21;
    pub const LIMIT: u8 = 23;
    /// The first and last of 01 that refuse a frame.
    pub const FRAME_FIRST: u8 = BEGINS_FF;
    pub const FRAME_LAST: u8 = FCS;
}

/// The settings octet; bits other than these two are kept and ignored.
#[derive(Clone, Copy)]
struct Settings(u8);

impl Settings {
    const BOTH: Settings = Settings(0x03);

    /// Codes D3-FE are allowed.
    fn zxe(self) -> bool {
        self.0 & 0x01 != 0
    }

    /// Preemption is allowed.
    fn pre(self) -> bool {
        self.0 & 0x02 != 0
    }
}

/// What is agreed beside the settings octet. A state handed in may have any numbers here; only with
/// good ones do the lengths below mean something, and all of these follow from the two.
#[derive(Clone, Copy)]
struct Agreed {
    /// The bits of the FCS.
    width: u8,
    /// The octets of the longest packet.
    limit: u16,
}

impl Agreed {
    /// What captures have, and an end before its first opening.
    const BASE: Agreed = Agreed {
        width: 16,
        limit: 2_048,
    };
    /// Limits that may be agreed.
    const LIMITS: std::ops::RangeInclusive<u16> = 2..=16_384;

    fn limit_good(self) -> bool {
        Agreed::LIMITS.contains(&self.limit)
    }

    fn width_good(self) -> bool {
        matches!(self.width, 16 | 32)
    }

    /// The two, or the refusal of an end to be opened with them: 23 comes first.
    fn at_opening(self) -> Result<Agreed, u8> {
        if !self.limit_good() {
            Err(refusal::LIMIT)
        } else if !self.width_good() {
            Err(refusal::STATE)
        } else {
            Ok(self)
        }
    }

    /// What every other call tests before it looks at areas and state.
    fn good(self) -> bool {
        self.limit_good() && self.width_good()
    }

    fn check(self) -> &'static Check {
        if self.width == 32 {
            &CHECK_32
        } else {
            &CHECK_16
        }
    }

    fn fcs_length(self) -> usize {
        usize::from(self.width / 8)
    }

    /// F: a packet and its FCS.
    fn frame_of(self, packet: &[u8]) -> Vec<u8> {
        let fcs = self.check().complement_over(packet);
        [packet, &fcs[..self.fcs_length()]].concat()
    }

    fn packet_longest(self) -> usize {
        usize::from(self.limit)
    }

    fn packet_lengths(self) -> std::ops::RangeInclusive<usize> {
        PACKET_SHORTEST..=self.packet_longest()
    }

    /// A frame is a packet and its FCS.
    fn frame_lengths(self) -> std::ops::RangeInclusive<usize> {
        self.frame_shortest()..=self.frame_longest()
    }

    fn frame_shortest(self) -> usize {
        PACKET_SHORTEST + self.fcs_length()
    }

    fn frame_longest(self) -> usize {
        self.packet_longest() + self.fcs_length()
    }

    /// Most decoded octets: the longest frame and its phantom.
    fn decoded_most(self) -> usize {
        self.frame_longest() + 1
    }

    fn sender_area(self) -> usize {
        self.frame_longest()
    }

    fn receiver_area(self) -> usize {
        self.decoded_most()
    }
}

// ---------------------------------------------------------------------------------------------
// Check sequence
// ---------------------------------------------------------------------------------------------

/// A check of either width; the narrow one uses the low 16 bits of each number.
struct Check {
    table: [u32; 256],
    /// All bits of the width set.
    start: u32,
    good: u32,
}

static CHECK_16: Check = Check {
    table: fcs_table(0x8408),
    start: 0xFFFF,
    good: 0xF0B8,
};

static CHECK_32: Check = Check {
    table: fcs_table(0xEDB8_8320),
    start: 0xFFFF_FFFF,
    good: 0xDEBB_20E3,
};

/// An entry of the table: its place, halved eight times, with the reflected polynomial xored in
/// wherever a one falls out.
const fn fcs_entry(place: u32, polynomial: u32) -> u32 {
    let mut entry = place;
    let mut step = 0;
    while step < 8 {
        entry = if entry % 2 == 1 {
            (entry / 2) ^ polynomial
        } else {
            entry / 2
        };
        step += 1;
    }
    entry
}

const fn fcs_table(polynomial: u32) -> [u32; 256] {
    let mut table = [0; 256];
    let mut place = 0;
    while place < 256 {
        table[place] = fcs_entry(place as u32, polynomial);
        place += 1;
    }
    table
}

impl Check {
    /// The register after all of `octets`, from its start value.
    fn register_over(&self, octets: &[u8]) -> u32 {
        octets.iter().fold(self.start, |register, &octet| {
            (register >> 8) ^ self.table[usize::from(register as u8 ^ octet)]
        })
    }

    /// The complement of the register over a packet, low octet first: its FCS, with zeros behind it
    /// where the FCS has fewer than four octets.
    fn complement_over(&self, packet: &[u8]) -> [u8; 4] {
        (self.register_over(packet) ^ self.start).to_le_bytes()
    }

    /// Whether octets are a packet and its FCS.
    fn good_over(&self, frame: &[u8]) -> bool {
        self.register_over(frame) == self.good
    }
}

// ---------------------------------------------------------------------------------------------
// Code blocks
// ---------------------------------------------------------------------------------------------

/// What a code octet says: so many data octets, then so many zeros.
#[derive(Clone, Copy)]
struct Block {
    data: usize,
    zeros: usize,
}

/// The code table. None for D1, D2, FF and zero, which are no codes.
fn block_of(code: u8) -> Option<Block> {
    match code {
        0x01..=0xCF => Some(Block {
            data: usize::from(code) - 1,
            zeros: 1,
        }),
        0xD0 => Some(Block {
            data: FULL_BLOCK,
            zeros: 0,
        }),
        0xD3..=0xDF => Some(Block {
            data: 0,
            zeros: usize::from(code - RUN_BASE),
        }),
        0xE0..=0xFE => Some(Block {
            data: usize::from(code - PAIR_BASE),
            zeros: 2,
        }),
        0x00 | 0xD1 | 0xD2 | 0xFF => None,
    }
}

/// Codes that only ZXE allows.
fn needs_zxe(code: u8) -> bool {
    (0xD3..=0xFE).contains(&code)
}

/// An octet inside a frame as it goes on the line.
fn to_line(octet: u8) -> u8 {
    if octet == FLAG {
        STAND_IN
    } else {
        octet
    }
}

/// An octet inside a frame as it was before it went on the line.
fn from_line(octet: u8) -> u8 {
    if octet == STAND_IN {
        FLAG
    } else {
        octet
    }
}

/// D: a frame and its phantom zero.
#[derive(Clone, Copy)]
struct Phantomed<'a> {
    frame: &'a [u8],
}

impl Phantomed<'_> {
    /// The octet at a place; None beyond the phantom.
    fn at(self, place: usize) -> Option<u8> {
        if place == self.frame.len() {
            Some(0)
        } else {
            self.frame.get(place).copied()
        }
    }

    /// How many zeros stand from `place` on, stopped at `most`.
    fn zeros_from(self, place: usize, most: usize) -> usize {
        (0..most)
            .take_while(|&n| self.at(place + n) == Some(0))
            .count()
    }

    /// How many non-zero octets stand from `place` on, stopped at 207.
    fn data_from(self, place: usize) -> usize {
        (0..FULL_BLOCK)
            .take_while(|&n| self.at(place + n).is_some_and(|octet| octet != 0))
            .count()
    }

    /// The sender's choice at the rest of D that begins at `place`.
    fn choose_code(self, place: usize, settings: Settings) -> u8 {
        let run = self.zeros_from(place, RUN_MOST);
        if settings.zxe() && run >= RUN_FEWEST {
            return RUN_BASE + run as u8;
        }
        let k = self.data_from(place);
        if k == FULL_BLOCK {
            FULL_CODE
        } else if settings.zxe() && k <= PAIR_BLOCK && self.zeros_from(place + k, 2) == 2 {
            PAIR_BASE + k as u8
        } else {
            k as u8 + 1
        }
    }
}

// ---------------------------------------------------------------------------------------------
// Sender
// ---------------------------------------------------------------------------------------------

#[derive(Clone, Copy, PartialEq, Eq)]
enum LaneName {
    Low,
    High,
}

#[derive(Clone, Copy, Default)]
struct Lane {
    /// Frame length; 0 when empty.
    length: usize,
    /// Place in D up to which it is covered.
    position: usize,
}

impl Lane {
    fn loaded(self) -> bool {
        self.length != 0
    }

    /// The whole D, phantom too, is covered.
    fn covered(self) -> bool {
        self.position == self.length + 1
    }

    fn in_bounds(self, agreed: Agreed) -> bool {
        (!self.loaded() || agreed.frame_lengths().contains(&self.length))
            && self.position <= self.length + 1
    }
}

/// The answer of a load.
enum Loaded {
    Done,
    Refused(u8),
}

/// The answer of a next-octet call.
enum Next {
    Octet(u8),
    Idle,
    Refused(u8),
}

#[derive(Clone, Copy)]
struct Sender {
    settings: Settings,
    agreed: Agreed,
    low: Lane,
    high: Lane,
    /// Data octets left in the block.
    left: usize,
    /// Zeros due after them.
    zeros: usize,
    on_line: Option<LaneName>,
    suspended: bool,
    cut_due: bool,
}

impl Sender {
    /// An opened sender, or the number of the refusal.
    fn open(settings: Settings, agreed: Agreed) -> Result<Sender, u8> {
        Ok(Sender::fresh(settings, agreed.at_opening()?))
    }

    fn fresh(settings: Settings, agreed: Agreed) -> Sender {
        Sender {
            settings,
            agreed,
            low: Lane::default(),
            high: Lane::default(),
            left: 0,
            zeros: 0,
            on_line: None,
            suspended: false,
            cut_due: false,
        }
    }

    fn lane(&self, name: LaneName) -> Lane {
        match name {
            LaneName::Low => self.low,
            LaneName::High => self.high,
        }
    }

    fn lane_mut(&mut self, name: LaneName) -> &mut Lane {
        match name {
            LaneName::Low => &mut self.low,
            LaneName::High => &mut self.high,
        }
    }

    /// 01's paragraph "In bounds", the sender's part, clause by clause; width and limit are good.
    fn in_bounds(&self) -> bool {
        let low_on_line = self.on_line == Some(LaneName::Low);
        self.low.in_bounds(self.agreed)
            && self.high.in_bounds(self.agreed)
            && self.left <= FULL_BLOCK
            && self.zeros <= 2
            && self.line_in_bounds()
            && (self.zeros == 0 || self.left != 0)
            && (!self.suspended || self.low.loaded())
            && !(low_on_line && self.suspended)
            && (!self.cut_due || (low_on_line && self.left == 0))
    }

    /// The clauses that hang on which lane is on the line.
    // Reading: the sum of position, left and zeros is bounded for the lane on the line, since left
    // and zeros are its block's; with no lane there both are 0 and the clause says nothing new.
    fn line_in_bounds(&self) -> bool {
        match self.on_line {
            None => self.left == 0 && self.zeros == 0,
            Some(name) => {
                let lane = self.lane(name);
                lane.loaded() && lane.position + self.left + self.zeros <= lane.length + 1
            }
        }
    }

    /// Load of a lane, lent that lane's area.
    fn load(&mut self, name: LaneName, area: &mut [u8], packet: &[u8]) -> Loaded {
        // Refusals of a call in the order 3 by width or limit, 2, 3 by the rest of the state, 4, 1.
        if !self.agreed.good() {
            return Loaded::Refused(refusal::STATE);
        }
        if area.len() < self.agreed.sender_area() {
            return Loaded::Refused(refusal::AREA_SHORT);
        }
        if !self.in_bounds() {
            return Loaded::Refused(refusal::STATE);
        }
        if self.lane(name).loaded() {
            return Loaded::Refused(refusal::LANE_HOLDS);
        }
        if !self.agreed.packet_lengths().contains(&packet.len()) {
            return Loaded::Refused(refusal::PACKET_LENGTH);
        }
        let frame = self.agreed.frame_of(packet);
        area[..frame.len()].copy_from_slice(&frame);
        *self.lane_mut(name) = Lane {
            length: frame.len(),
            position: 0,
        };
        Loaded::Done
    }

    /// Next octet, lent both areas.
    fn next_octet(&mut self, low_area: &[u8], high_area: &[u8]) -> Next {
        if !self.agreed.good() {
            return Next::Refused(refusal::STATE);
        }
        let least = self.agreed.sender_area();
        if low_area.len() < least || high_area.len() < least {
            return Next::Refused(refusal::AREA_SHORT);
        }
        if !self.in_bounds() {
            return Next::Refused(refusal::STATE);
        }
        // Step 1.
        if self.cut_due {
            return self.cut();
        }
        // Step 2.
        let name = match self.on_line.or_else(|| self.lane_to_go()) {
            Some(name) => name,
            None => return Next::Idle,
        };
        let just_put_on_line = self.on_line.is_none();
        self.on_line = Some(name);
        if just_put_on_line && name == LaneName::Low && self.suspended {
            return self.resume_low();
        }
        let area = match name {
            LaneName::Low => low_area,
            LaneName::High => high_area,
        };
        self.send_from(name, area)
    }

    /// Steps 3 to 6, with `name` on the line.
    fn send_from(&mut self, name: LaneName, area: &[u8]) -> Next {
        let lane = self.lane(name);
        // Step 3.
        if lane.covered() {
            return self.close(name);
        }
        // Step 4.
        if name == LaneName::Low && self.settings.pre() && self.high.loaded() {
            return if self.left > 0 {
                self.cut()
            } else {
                self.make_cut_due()
            };
        }
        let d = Phantomed {
            frame: &area[..lane.length],
        };
        // Steps 5 and 6.
        if self.left > 0 {
            self.send_data(name, d)
        } else {
            self.send_code(name, d)
        }
    }

    /// Step 2's choice of a lane: a loaded high one goes first.
    fn lane_to_go(&self) -> Option<LaneName> {
        if self.high.loaded() {
            Some(LaneName::High)
        } else if self.low.loaded() {
            Some(LaneName::Low)
        } else {
            None
        }
    }

    /// Step 2: a suspended low lane sends D1 and begins a fresh block.
    fn resume_low(&mut self) -> Next {
        self.suspended = false;
        self.left = 0;
        self.zeros = 0;
        Next::Octet(RESUME)
    }

    /// Steps 1 and 4: the flag that breaks the low lane off.
    fn cut(&mut self) -> Next {
        self.cut_due = false;
        self.left = 0;
        self.zeros = 0;
        self.suspended = true;
        self.on_line = None;
        Next::Octet(FLAG)
    }

    /// Step 4 between blocks: a code to be broken off by the next call.
    fn make_cut_due(&mut self) -> Next {
        self.cut_due = true;
        Next::Octet(BREAK_CODE)
    }

    /// Step 3: the flag that closes the frame.
    fn close(&mut self, name: LaneName) -> Next {
        *self.lane_mut(name) = Lane::default();
        self.on_line = None;
        Next::Octet(FLAG)
    }

    /// Step 5: the next data octet, and with the last the zeros due.
    // Reading: "the next" is the octet of D at the position, so where a state handed in has data
    // left at the phantom's place, the phantom (zero) is sent, whatever the area holds there.
    fn send_data(&mut self, name: LaneName, d: Phantomed) -> Next {
        let octet = d.at(self.lane(name).position).unwrap_or(0);
        self.left -= 1;
        self.lane_mut(name).position += 1;
        if self.left == 0 {
            self.lane_mut(name).position += self.zeros;
            self.zeros = 0;
        }
        Next::Octet(to_line(octet))
    }

    /// Step 6: the code of a block; zeros without data are covered by it.
    fn send_code(&mut self, name: LaneName, d: Phantomed) -> Next {
        let code = d.choose_code(self.lane(name).position, self.settings);
        let block = block_of(code).unwrap_or(Block { data: 0, zeros: 0 });
        if block.data == 0 {
            self.lane_mut(name).position += block.zeros;
        } else {
            self.left = block.data;
            self.zeros = block.zeros;
        }
        Next::Octet(to_line(code))
    }
}

// ---------------------------------------------------------------------------------------------
// Plain PPP: maps and sender
// ---------------------------------------------------------------------------------------------

/// The receiving map: bit i marks octet i, below 20, which is removed where it arrives.
#[derive(Clone, Copy)]
struct ControlMap(u32);

impl ControlMap {
    const EMPTY: ControlMap = ControlMap(0);

    fn removes(self, octet: u8) -> bool {
        octet < 0x20 && self.0 >> octet & 1 == 1
    }
}

/// The sending map: octet i / 8 has the mark of octet i, which is sent escaped, at its bit i mod 8.
#[derive(Clone, Copy)]
struct Marks([u8; 32]);

impl Marks {
    const EMPTY: Marks = Marks([0; 32]);

    fn has(self, octet: u8) -> bool {
        self.0[usize::from(octet / 8)] >> (octet % 8) & 1 == 1
    }

    fn with(mut self, octet: u8) -> Marks {
        self.0[usize::from(octet / 8)] |= 1 << (octet % 8);
        self
    }

    /// What every map gets when the pair is opened.
    fn with_escape_and_flag(self) -> Marks {
        self.with(ESCAPE).with(FLAG)
    }

    /// Octets that would be a flag or a control octet once escaped.
    fn has_forbidden(self) -> bool {
        self.has(0x5E) || (0x20..=0x3F).any(|octet| self.has(octet))
    }

    /// 19: no sending map for this receiving one.
    fn unfit_for(self, receiving: ControlMap) -> bool {
        self.has_forbidden() || (0..0x20).any(|octet| receiving.removes(octet) && !self.has(octet))
    }
}

#[derive(Clone, Copy)]
struct PlainSender {
    agreed: Agreed,
    marks: Marks,
}

impl PlainSender {
    fn fresh(agreed: Agreed, marks: Marks) -> PlainSender {
        PlainSender {
            agreed,
            marks: marks.with_escape_and_flag(),
        }
    }

    /// Width and limit are good.
    // Reading: what 19 forbids a map at opening is out of bounds in a state handed in; the
    // receiving map is not known here.
    fn in_bounds(&self) -> bool {
        self.marks.has(ESCAPE) && self.marks.has(FLAG) && !self.marks.has_forbidden()
    }

    /// A frame and its flag as they go on the line.
    fn line_of(&self, packet: &[u8]) -> Vec<u8> {
        let mut line = Vec::new();
        for octet in self.agreed.frame_of(packet) {
            if self.marks.has(octet) {
                line.extend([ESCAPE, octet ^ ESCAPE_BIT]);
            } else {
                line.push(octet);
            }
        }
        line.push(FLAG);
        line
    }

    /// Writes one frame and its flag to a lent area; the length written, or the refusal.
    // Reading: 2 is told by what this packet takes with these marks, also where 3 or 1 would
    // follow.
    fn send(&self, packet: &[u8], area: &mut [u8]) -> Result<usize, u8> {
        if !self.agreed.good() {
            return Err(refusal::STATE);
        }
        let line = self.line_of(packet);
        if line.len() > area.len() {
            return Err(refusal::AREA_SHORT);
        }
        if !self.in_bounds() {
            return Err(refusal::STATE);
        }
        if !self.agreed.packet_lengths().contains(&packet.len()) {
            return Err(refusal::PACKET_LENGTH);
        }
        area[..line.len()].copy_from_slice(&line);
        Ok(line.len())
    }
}

/// A plain sender and a receiver with plain reading on, or the number of the refusal.
fn open_pair(
    settings: Settings,
    agreed: Agreed,
    map: ControlMap,
    marks: Marks,
) -> Result<(PlainSender, Receiver), u8> {
    let agreed = agreed.at_opening()?;
    if marks.unfit_for(map) {
        return Err(refusal::SENDING_MAP);
    }
    Ok((
        PlainSender::fresh(agreed, marks),
        Receiver::fresh(settings, agreed, Mode::Cobs, map),
    ))
}

// ---------------------------------------------------------------------------------------------
// Receiver
// ---------------------------------------------------------------------------------------------

/// How octets are read. With plain reading off they are COBS for good; with it on a frame that
/// begins FF is plain PPP, as are all after it.
#[derive(Clone, Copy, PartialEq, Eq)]
enum Mode {
    /// COBS, plain reading off.
    Off,
    /// COBS, plain reading on.
    Cobs,
    Plain,
    /// Plain, behind an escape.
    Escaped,
}

impl Mode {
    fn is_plain(self) -> bool {
        matches!(self, Mode::Plain | Mode::Escaped)
    }

    /// What a flag leaves of it.
    fn after_flag(self) -> Mode {
        if self == Mode::Escaped {
            Mode::Plain
        } else {
            self
        }
    }
}

#[derive(Clone, Copy, PartialEq, Eq)]
enum LastBlock {
    None,
    Full,
    Other,
}

/// The answer of a receiver call.
#[derive(Clone, Copy, PartialEq, Eq)]
enum Answer {
    Quiet,
    Packet { area: usize, length: usize },
    Held { count: usize, replaced: bool },
    Refused(u8),
}

/// The two lent areas, first and second.
type Areas<'a> = [&'a mut [u8]; 2];

#[derive(Clone, Copy)]
struct Receiver {
    settings: Settings,
    agreed: Agreed,
    mode: Mode,
    map: ControlMap,
    /// Which area works: 0 the first, 1 the second. The other one is the held area.
    work: usize,
    decoded: usize,
    held: Option<usize>,
    /// The check register over the held octets; with nothing held, FFFF or FFFFFFFF.
    register: u32,
    /// Data octets left in the block.
    left: usize,
    /// Zeros due after them.
    zeros: usize,
    last: LastBlock,
    in_frame: bool,
    resumed: bool,
    refusal: Option<u8>,
}

impl Receiver {
    /// An opened receiver, or the number of the refusal. With plain reading off there is no map.
    fn open(
        settings: Settings,
        agreed: Agreed,
        plain: bool,
        map: ControlMap,
    ) -> Result<Receiver, u8> {
        let agreed = agreed.at_opening()?;
        Ok(if plain {
            Receiver::fresh(settings, agreed, Mode::Cobs, map)
        } else {
            Receiver::fresh(settings, agreed, Mode::Off, ControlMap::EMPTY)
        })
    }

    fn fresh(settings: Settings, agreed: Agreed, mode: Mode, map: ControlMap) -> Receiver {
        Receiver {
            settings,
            agreed,
            mode,
            map,
            work: 0,
            decoded: 0,
            held: None,
            register: agreed.check().start,
            left: 0,
            zeros: 0,
            last: LastBlock::None,
            in_frame: false,
            resumed: false,
            refusal: None,
        }
    }

    /// 01's paragraph "In bounds", the receiver's part, and what 02 adds; width and limit are good.
    fn in_bounds(&self) -> bool {
        let most = self.agreed.decoded_most();
        self.decoded <= most
            && self.held.is_none_or(|count| count <= most)
            && self.register_in_bounds()
            && self.left <= FULL_BLOCK
            && self.zeros <= 2
            && self
                .refusal
                .is_none_or(|number| self.remembered_in_bounds(number))
            && (if self.in_frame {
                self.frame_in_bounds()
            } else {
                self.fresh_outside()
            })
    }

    /// The register of what is held: any of its width; of nothing: its start value.
    // Reading: in bounds does not ask whether it is that of the held octets; only D1 does.
    fn register_in_bounds(&self) -> bool {
        let start = self.agreed.check().start;
        match self.held {
            None => self.register == start,
            Some(_) => self.register <= start,
        }
    }

    /// Refusals that may be remembered: 5 only with plain reading off, and with nothing held, since
    /// its FF let that go.
    // Reading: this is asked of 5 alone, and whatever the settings are; 21 lets go too, but a state
    // handed in may have it with something held, as 6 to 10. All but 5 may be there in any mode.
    fn remembered_in_bounds(&self, number: u8) -> bool {
        match number {
            refusal::BEGINS_FF => self.mode == Mode::Off && self.held.is_none(),
            refusal::NOT_AGREED..=refusal::TOO_MUCH | refusal::HELD_CHANGED => true,
            _ => false,
        }
    }

    /// What must be as in a fresh receiver while no frame is begun.
    // Reading: the settings are as given at opening, so they are not tested either; nor are width
    // and limit, once they are good, nor the map. An escape is open only in a frame.
    fn fresh_outside(&self) -> bool {
        self.decoded == 0
            && self.no_block()
            && !self.resumed
            && self.refusal.is_none()
            && self.mode != Mode::Escaped
    }

    /// Data left, zeros due and last block are as fresh.
    fn no_block(&self) -> bool {
        self.left == 0 && self.zeros == 0 && self.last == LastBlock::None
    }

    /// The two clauses on the last block; in plain reading there is none.
    // Reading: "in a frame without refusal" governs both clauses, so a frame with a remembered
    // refusal is tested by neither. "Stay as fresh" is asked of plain reading with a refusal too.
    fn frame_in_bounds(&self) -> bool {
        if self.mode.is_plain() {
            return self.no_block();
        }
        if self.refusal.is_some() {
            return true;
        }
        match self.last {
            LastBlock::None => self.resumed,
            LastBlock::Full => true,
            LastBlock::Other => self.left > 0 || self.decoded > 0,
        }
    }

    /// The receiver call: one octet, lent both areas.
    fn call(&mut self, areas: &mut Areas, octet: u8) -> Answer {
        if !self.agreed.good() {
            return Answer::Refused(refusal::STATE);
        }
        let least = self.agreed.receiver_area();
        if areas.iter().any(|area| area.len() < least) {
            return Answer::Refused(refusal::AREA_SHORT);
        }
        if !self.in_bounds() {
            return Answer::Refused(refusal::STATE);
        }
        self.take(areas, octet)
    }

    /// The receiver's steps, areas and state being good.
    #[inline]
    fn take(&mut self, areas: &mut Areas, octet: u8) -> Answer {
        if octet == FLAG {
            return self.take_flag(areas);
        }
        if self.mode.is_plain() {
            self.take_plain(areas, octet);
            return Answer::Quiet;
        }
        let octet = from_line(octet);
        if self.refusal.is_some() {
            // Step 4: the rest of the frame is skipped.
        } else if self.left > 0 {
            self.take_data(areas, octet);
        } else if self.in_frame {
            self.take_code(areas, octet);
        } else {
            self.take_first(areas, octet);
        }
        Answer::Quiet
    }

    /// Step 1: the first octet of a frame.
    fn take_first(&mut self, areas: &mut Areas, octet: u8) {
        self.in_frame = true;
        match octet {
            RESTART => self.take_restart(areas),
            RESUME => self.take_resume(areas),
            code => self.take_code(areas, code),
        }
    }

    /// Step 1: a first FF. What was held before the peer's restart goes at once. With plain reading
    /// on the FF is the first octet of a plain frame.
    // Reading: the areas do not turn, and PRE is not looked at; nor is the map, which has no FF.
    fn take_restart(&mut self, areas: &mut Areas) {
        self.let_go();
        if self.mode == Mode::Off {
            self.refuse(refusal::BEGINS_FF);
        } else {
            self.mode = Mode::Plain;
            self.put(areas, RESTART);
        }
    }

    /// An octet other than the flag in plain reading.
    // Reading: what is removed neither begins a frame nor ends an escape, and only the octet as it
    // came is looked up in the map. Behind an escape 7D is as any other: 5D.
    fn take_plain(&mut self, areas: &mut Areas, octet: u8) {
        if self.refusal.is_some() || self.map.removes(octet) {
            return;
        }
        self.in_frame = true;
        if self.mode == Mode::Escaped {
            self.mode = Mode::Plain;
            self.put(areas, octet ^ ESCAPE_BIT);
        } else if octet == ESCAPE {
            self.mode = Mode::Escaped;
        } else {
            self.put(areas, octet);
        }
    }

    /// An octet of a plain frame; there is no phantom, so that the longest frame is the most.
    fn put(&mut self, areas: &mut Areas, octet: u8) {
        if self.decoded + 1 > self.agreed.frame_longest() {
            return self.refuse(refusal::TOO_MUCH);
        }
        areas[self.work][self.decoded] = octet;
        self.decoded += 1;
    }

    /// Step 1: a first D1.
    // Reading: the words "which makes the frame a resumed one" stand before the refusals, so the
    // mark is set with 6, 8 and 21 too, and a fragment held is lost at the flag of a D1 refused 6.
    // Reading: with 21 nothing is held from the D1 on, as behind FF, and the areas do not turn.
    fn take_resume(&mut self, areas: &Areas) {
        self.resumed = true;
        if !self.settings.pre() {
            return self.refuse(refusal::NOT_AGREED);
        }
        let Some(count) = self.held else {
            return self.refuse(refusal::NOTHING_HELD);
        };
        let held_area = 1 - self.work;
        let unchanged = self.register_of(areas[held_area], count) == self.register;
        self.let_go();
        if unchanged {
            self.decoded = count;
            self.work = held_area;
        } else {
            self.refuse(refusal::HELD_CHANGED);
        }
    }

    /// The register over the first octets of an area.
    fn register_of(&self, area: &[u8], count: usize) -> u32 {
        self.agreed.check().register_over(&area[..count])
    }

    /// Step 2: a code.
    // Reading: zeros due that a state handed in has with no data left are replaced by the new
    // block's, never written.
    fn take_code(&mut self, areas: &mut Areas, code: u8) {
        let Some(block) = block_of(code) else {
            return self.refuse(refusal::NO_SUCH_CODE);
        };
        if needs_zxe(code) && !self.settings.zxe() {
            return self.refuse(refusal::NOT_AGREED);
        }
        self.last = if code == FULL_CODE {
            LastBlock::Full
        } else {
            LastBlock::Other
        };
        self.left = block.data;
        self.zeros = block.zeros;
        if self.left == 0 {
            self.write_zeros(areas);
        }
    }

    /// Step 3: a data octet, and with the last the block's zeros.
    #[inline]
    fn take_data(&mut self, areas: &mut Areas, octet: u8) {
        if self.decoded + 1 > self.agreed.decoded_most() {
            return self.refuse(refusal::TOO_MUCH);
        }
        areas[self.work][self.decoded] = octet;
        self.decoded += 1;
        self.left -= 1;
        if self.left == 0 {
            self.write_zeros(areas);
        }
    }

    /// Step 3: a block's zeros together.
    // Reading: a last data octet that fits is written even if its block's zeros do not.
    fn write_zeros(&mut self, areas: &mut Areas) {
        let end = self.decoded + self.zeros;
        if end > self.agreed.decoded_most() {
            return self.refuse(refusal::TOO_MUCH);
        }
        areas[self.work][self.decoded..end].fill(0);
        self.decoded = end;
        self.zeros = 0;
    }

    /// Step 4.
    fn refuse(&mut self, number: u8) {
        self.refusal = Some(number);
        self.left = 0;
        self.zeros = 0;
        self.last = LastBlock::None;
    }

    /// From here on nothing is held: at FF, at a D1 that is accepted or refused 21, and at the flag
    /// of a resumed frame that is not held itself.
    fn let_go(&mut self) {
        self.held = None;
        self.register = self.agreed.check().start;
    }

    /// Step 5: the flag gives the report, and all but settings, width, limit, map, mode, turn, held
    /// count and its register goes fresh; an open escape ends.
    fn take_flag(&mut self, areas: &Areas) -> Answer {
        let report = if !self.in_frame {
            Answer::Quiet
        } else if self.mode.is_plain() {
            self.report_plain(areas)
        } else {
            self.report(areas)
        };
        self.note_held(areas, report);
        *self = Receiver {
            work: self.work,
            held: self.held,
            register: self.register,
            ..Receiver::fresh(self.settings, self.agreed, self.mode.after_flag(), self.map)
        };
        report
    }

    /// What the flag of a plain frame reports.
    // Reading: 10 is not only remembered. A state handed in may have one octet more than the
    // longest frame, and its flag is refused so.
    fn report_plain(&self, areas: &Areas) -> Answer {
        if let Some(number) = self.refusal {
            return Answer::Refused(number);
        }
        if self.decoded > self.agreed.frame_longest() {
            return Answer::Refused(refusal::TOO_MUCH);
        }
        if self.mode == Mode::Escaped {
            return Answer::Refused(refusal::ESCAPE_OPEN);
        }
        self.report_frame(areas, self.decoded)
    }

    /// Step 5's choice, in its order.
    // Reading: "D1 alone" is last block none (in a frame without refusal only a resumed one has
    // it), also where a state handed in has data left with it.
    // Reading: "inside a block" is data left; zeros due alone, only in a state handed in, is not.
    fn report(&self, areas: &Areas) -> Answer {
        if let Some(number) = self.refusal {
            return Answer::Refused(number);
        }
        if self.last == LastBlock::None {
            return Answer::Refused(refusal::RESUME_ALONE);
        }
        if self.left > 0 {
            return self.report_inside_block();
        }
        if self.last == LastBlock::Full {
            return Answer::Refused(refusal::LAST_FULL);
        }
        self.report_whole(areas)
    }

    /// Step 5: the frame ends inside a block.
    fn report_inside_block(&self) -> Answer {
        if self.settings.pre() {
            let replaced = !self.resumed && self.held.is_some();
            Answer::Held {
                count: self.decoded,
                replaced,
            }
        } else {
            Answer::Refused(refusal::ENDS_IN_BLOCK)
        }
    }

    /// Step 5: the phantom goes, and what is left is a frame.
    fn report_whole(&self, areas: &Areas) -> Answer {
        self.report_frame(areas, self.decoded.saturating_sub(1))
    }

    /// A frame of so many octets in the work area.
    fn report_frame(&self, areas: &Areas, length: usize) -> Answer {
        if length < self.agreed.frame_shortest() {
            return Answer::Refused(refusal::TOO_LITTLE);
        }
        if !self.agreed.check().good_over(&areas[self.work][..length]) {
            return Answer::Refused(refusal::FCS);
        }
        Answer::Packet {
            area: self.work,
            length: length - self.agreed.fcs_length(),
        }
    }

    /// What a report does to the held fragment and the turn of the areas.
    fn note_held(&mut self, areas: &Areas, report: Answer) {
        match report {
            Answer::Held { count, .. } => {
                self.held = Some(count);
                self.register = self.register_of(areas[self.work], count);
                self.work = 1 - self.work;
            }
            Answer::Packet { .. } | Answer::Refused(_) if self.resumed => self.let_go(),
            Answer::Packet { .. } | Answer::Refused(_) | Answer::Quiet => {}
        }
    }
}

// ---------------------------------------------------------------------------------------------
// Display and tally
// ---------------------------------------------------------------------------------------------

/// The octets of a reported packet as a part of its area; a length beyond it shows none.
fn shown(area: &[u8], length: usize) -> &[u8] {
    area.get(..length).unwrap_or(&[])
}

const COUNTS: usize = 15;
const COUNT_NAMES: [&str; COUNTS] = [
    "packets",
    "held",
    "held-replaced",
    "refused-5",
    "refused-6",
    "refused-7",
    "refused-8",
    "refused-9",
    "refused-10",
    "refused-11",
    "refused-12",
    "refused-13",
    "refused-14",
    "refused-18",
    "refused-21",
];

#[derive(Default)]
struct Tally {
    counts: [u64; COUNTS],
}

impl Tally {
    /// Raises the report's count, if it has one.
    fn note(&mut self, report: Answer) {
        let place = match report {
            Answer::Packet { .. } => 0,
            Answer::Held {
                replaced: false, ..
            } => 1,
            Answer::Held { replaced: true, .. } => 2,
            Answer::Refused(number @ refusal::FRAME_FIRST..=refusal::FRAME_LAST) => {
                3 + usize::from(number - refusal::FRAME_FIRST)
            }
            Answer::Refused(refusal::ESCAPE_OPEN) => 13,
            Answer::Refused(refusal::HELD_CHANGED) => 14,
            Answer::Refused(_) | Answer::Quiet => return,
        };
        self.counts[place] = self.counts[place].saturating_add(1);
    }
}

// ---------------------------------------------------------------------------------------------
// Lines
// ---------------------------------------------------------------------------------------------

/// Each octet as a space and two hexadecimal capitals.
static HEX: [[u8; 3]; 256] = hex_table();

const fn hex_table() -> [[u8; 3]; 256] {
    const DIGITS: &[u8; 16] = b"0123456789ABCDEF";
    let mut table = [[b' '; 3]; 256];
    let mut octet = 0;
    while octet < 256 {
        table[octet] = [b' ', DIGITS[octet / 16], DIGITS[octet % 16]];
        octet += 1;
    }
    table
}

/// Output, gathered and written in large pieces.
struct Lines<W: Write> {
    gathered: Vec<u8>,
    to: W,
}

impl<W: Write> Lines<W> {
    const FULL: usize = 1 << 16;

    fn new(to: W) -> Lines<W> {
        Lines {
            gathered: Vec::with_capacity(2 * Lines::<W>::FULL),
            to,
        }
    }

    fn begin(&mut self, letter: u8) {
        self.gathered.push(letter);
    }

    fn number(&mut self, number: usize) {
        self.gathered.push(b' ');
        self.decimal(number as u64);
    }

    fn decimal(&mut self, mut rest: u64) {
        let mut digits = [b'0'; 20];
        let mut first = digits.len();
        loop {
            first -= 1;
            digits[first] = b'0' + (rest % 10) as u8;
            rest /= 10;
            if rest == 0 {
                break;
            }
        }
        self.gathered.extend_from_slice(&digits[first..]);
    }

    fn octets(&mut self, octets: &[u8]) {
        for &octet in octets {
            self.gathered.extend_from_slice(&HEX[usize::from(octet)]);
        }
    }

    fn end(&mut self) -> io::Result<()> {
        self.gathered.push(b'\n');
        if self.gathered.len() >= Lines::<W>::FULL {
            self.flush()
        } else {
            Ok(())
        }
    }

    fn flush(&mut self) -> io::Result<()> {
        self.to.write_all(&self.gathered)?;
        self.gathered.clear();
        self.to.flush()
    }

    /// A line of a letter alone.
    fn letter(&mut self, letter: u8) -> io::Result<()> {
        self.begin(letter);
        self.end()
    }

    /// A line of a letter and numbers.
    fn numbers(&mut self, letter: u8, numbers: &[usize]) -> io::Result<()> {
        self.begin(letter);
        for &number in numbers {
            self.number(number);
        }
        self.end()
    }

    fn refused(&mut self, number: u8) -> io::Result<()> {
        self.numbers(b'R', &[usize::from(number)])
    }

    fn held(&mut self, count: usize, replaced: bool) -> io::Result<()> {
        self.numbers(b'H', &[count, usize::from(replaced)])
    }
}

// ---------------------------------------------------------------------------------------------
// Capture and count
// ---------------------------------------------------------------------------------------------

/// Runs a fresh receiver, both settings on, 16 bits and packets to 2,048, plain reading on with an
/// empty map, over all of the input; `note` gets each report.
fn receive_all<N>(input: &mut impl Read, mut note: N) -> io::Result<()>
where
    N: FnMut(Answer, &Areas) -> io::Result<()>,
{
    let mut receiver = Receiver::fresh(Settings::BOTH, Agreed::BASE, Mode::Cobs, ControlMap::EMPTY);
    let mut first = vec![0; receiver.agreed.receiver_area()];
    let mut second = first.clone();
    let mut areas: Areas = [&mut first, &mut second];
    let mut piece = vec![0; 1 << 18];
    loop {
        let count = input.read(&mut piece)?;
        if count == 0 {
            return Ok(());
        }
        for &octet in &piece[..count] {
            let answer = receiver.take(&mut areas, octet);
            if answer != Answer::Quiet {
                note(answer, &areas)?;
            }
        }
    }
}

fn capture(input: &mut impl Read, output: impl Write) -> io::Result<()> {
    let mut lines = Lines::new(output);
    receive_all(input, |report, areas| match report {
        Answer::Quiet => Ok(()),
        Answer::Packet { area, length } => {
            lines.begin(b'P');
            lines.number(length);
            lines.octets(shown(areas[area], length));
            lines.end()
        }
        Answer::Held { count, replaced } => lines.held(count, replaced),
        Answer::Refused(number) => lines.refused(number),
    })?;
    lines.flush()
}

fn count(input: &mut impl Read, mut output: impl Write) -> io::Result<()> {
    let mut tally = Tally::default();
    receive_all(input, |report, _| {
        tally.note(report);
        Ok(())
    })?;
    for (name, count) in COUNT_NAMES.iter().zip(tally.counts) {
        writeln!(output, "{name} {count}")?;
    }
    output.flush()
}

// ---------------------------------------------------------------------------------------------
// Exercise
// ---------------------------------------------------------------------------------------------

/// The whole of low, high, first and second each, and the most that is lent of them.
const END_AREA: usize = 20_480;
/// The same of out.
const OUT_AREA: usize = 40_960;
const LOW: usize = 0;
const HIGH: usize = 1;
const FIRST: usize = 2;
const SECOND: usize = 3;
const OUT: usize = 4;
const AREAS: usize = 5;
/// Lent at the start: enough for 16 bits and packets to 2,048.
const LENT: [usize; AREAS] = [2_050, 2_050, 2_051, 2_051, 2_051];

/// A command with all of its operands.
enum Command<'a> {
    OpenSender(Settings, Agreed),
    OpenReceiver(Settings, Agreed, bool, ControlMap),
    OpenPair(Settings, Agreed, ControlMap, Marks),
    Load(LaneName, &'a [u8]),
    Next(usize),
    Receive(&'a [u8]),
    /// Lengths of low, high, first and second.
    Lend([usize; 4]),
    LendOut(usize),
    Fill {
        area: usize,
        at: usize,
        octets: &'a [u8],
    },
    HandSender(Sender),
    HandReceiver(Receiver),
    HandPlainSender(PlainSender),
    SendPlain(&'a [u8]),
    ShowStates,
    ShowArea {
        area: usize,
        at: usize,
        count: usize,
    },
}

/// The commands of a script not yet read.
struct Script<'a> {
    rest: &'a [u8],
}

impl<'a> Script<'a> {
    /// The next command; None when it is unknown or cut short.
    fn command(&mut self) -> Option<Command<'a>> {
        Some(match self.octet()? {
            b'o' => Command::OpenSender(Settings(self.octet()?), self.agreed()?),
            b'O' => Command::OpenReceiver(
                Settings(self.octet()?),
                self.agreed()?,
                self.octet()? != 0,
                self.map()?,
            ),
            b'p' => Command::OpenPair(
                Settings(self.octet()?),
                self.agreed()?,
                self.map()?,
                self.marks()?,
            ),
            b'l' => Command::Load(LaneName::Low, self.octets()?),
            b'h' => Command::Load(LaneName::High, self.octets()?),
            b'n' => Command::Next(self.number()?),
            b'r' => Command::Receive(self.octets()?),
            b'a' => Command::Lend(self.numbers()?.map(|length| length.min(END_AREA))),
            b'A' => Command::LendOut(self.number()?.min(OUT_AREA)),
            b'f' => Command::Fill {
                area: self.octet()?.into(),
                at: self.number()?,
                octets: self.octets()?,
            },
            b's' => Command::HandSender(sender_of(self.numbers()?)),
            b't' => Command::HandReceiver(receiver_of(self.numbers()?)),
            b'P' => Command::HandPlainSender(PlainSender {
                agreed: self.agreed()?,
                marks: self.marks()?,
            }),
            b'w' => Command::SendPlain(self.octets()?),
            b'd' => Command::ShowStates,
            b'x' => Command::ShowArea {
                area: self.octet()?.into(),
                at: self.number()?,
                count: self.number()?,
            },
            _ => return None,
        })
    }

    fn take(&mut self, count: usize) -> Option<&'a [u8]> {
        let (taken, rest) = self.rest.split_at_checked(count)?;
        self.rest = rest;
        Some(taken)
    }

    fn octet(&mut self) -> Option<u8> {
        self.take(1).map(|octets| octets[0])
    }

    /// Two octets, low octet first.
    fn number(&mut self) -> Option<usize> {
        self.take(2)
            .map(|octets| usize::from(octets[0]) + 256 * usize::from(octets[1]))
    }

    fn numbers<const N: usize>(&mut self) -> Option<[usize; N]> {
        let mut numbers = [0; N];
        for number in &mut numbers {
            *number = self.number()?;
        }
        Some(numbers)
    }

    fn octets(&mut self) -> Option<&'a [u8]> {
        let count = self.number()?;
        self.take(count)
    }

    /// Width and limit as an opening has them, and a plain sender.
    fn agreed(&mut self) -> Option<Agreed> {
        Some(agreed_of(self.octet()?.into(), self.number()?))
    }

    fn map(&mut self) -> Option<ControlMap> {
        let octets = self.take(4)?.try_into().ok()?;
        Some(ControlMap(u32::from_le_bytes(octets)))
    }

    fn marks(&mut self) -> Option<Marks> {
        Some(Marks(self.take(32)?.try_into().ok()?))
    }
}

/// Width and limit from two numbers: the width by its remainder, the limit as it is.
fn agreed_of(width: usize, limit: usize) -> Agreed {
    Agreed {
        width: (width % 256) as u8,
        limit: limit as u16,
    }
}

/// The twelve numbers of `s`.
fn sender_of(numbers: [usize; 12]) -> Sender {
    let [settings, low, low_at, high, high_at, left, zeros, ..] = numbers;
    let [.., line, suspended, cut_due, width, limit] = numbers;
    Sender {
        settings: Settings((settings % 256) as u8),
        agreed: agreed_of(width, limit),
        low: Lane {
            length: low,
            position: low_at,
        },
        high: Lane {
            length: high,
            position: high_at,
        },
        left: left % 256,
        zeros: zeros % 256,
        on_line: [None, Some(LaneName::Low), Some(LaneName::High)][line % 3],
        suspended: suspended % 2 == 1,
        cut_due: cut_due % 2 == 1,
    }
}

fn sender_numbers(sender: &Sender) -> [usize; 12] {
    [
        usize::from(sender.settings.0),
        sender.low.length,
        sender.low.position,
        sender.high.length,
        sender.high.position,
        sender.left,
        sender.zeros,
        match sender.on_line {
            None => 0,
            Some(LaneName::Low) => 1,
            Some(LaneName::High) => 2,
        },
        usize::from(sender.suspended),
        usize::from(sender.cut_due),
        usize::from(sender.agreed.width),
        usize::from(sender.agreed.limit),
    ]
}

/// The seventeen numbers of `t`.
fn receiver_of(numbers: [usize; 17]) -> Receiver {
    let [settings, work, decoded, held, left, zeros, last, in_frame, ..] = numbers;
    let [.., resumed, remembered, width, limit, low, high, mode, map_low, map_high] = numbers;
    Receiver {
        settings: Settings((settings % 256) as u8),
        agreed: agreed_of(width, limit),
        mode: MODES[mode % MODES.len()],
        map: ControlMap(joined(map_low, map_high)),
        work: work % 2,
        decoded,
        held: held.checked_sub(1),
        register: joined(low, high),
        left: left % 256,
        zeros: zeros % 256,
        last: [LastBlock::None, LastBlock::Full, LastBlock::Other][last % 3],
        in_frame: in_frame % 2 == 1,
        resumed: resumed % 2 == 1,
        refusal: Some((remembered % 256) as u8).filter(|&number| number != 0),
    }
}

/// The modes by their numbers.
const MODES: [Mode; 4] = [Mode::Off, Mode::Cobs, Mode::Plain, Mode::Escaped];

/// A number of 32 bits by its halves, and its halves.
fn joined(low: usize, high: usize) -> u32 {
    (low | high << 16) as u32
}

fn halves(number: u32) -> [usize; 2] {
    [number as usize % 0x1_0000, number as usize / 0x1_0000]
}

fn receiver_numbers(receiver: &Receiver) -> [usize; 17] {
    let [register_low, register_high] = halves(receiver.register);
    let [map_low, map_high] = halves(receiver.map.0);
    [
        usize::from(receiver.settings.0),
        receiver.work,
        receiver.decoded,
        receiver.held.map_or(0, |count| count + 1),
        receiver.left,
        receiver.zeros,
        match receiver.last {
            LastBlock::None => 0,
            LastBlock::Full => 1,
            LastBlock::Other => 2,
        },
        usize::from(receiver.in_frame),
        usize::from(receiver.resumed),
        receiver.refusal.map_or(0, usize::from),
        usize::from(receiver.agreed.width),
        usize::from(receiver.agreed.limit),
        register_low,
        register_high,
        match receiver.mode {
            Mode::Off => 0,
            Mode::Cobs => 1,
            Mode::Plain => 2,
            Mode::Escaped => 3,
        },
        map_low,
        map_high,
    ]
}

/// The places from `at` on, at most `count`, of an area that has `whole` in all.
fn part(at: usize, count: usize, whole: usize) -> std::ops::Range<usize> {
    let begin = at.min(whole);
    begin..(begin + count).min(whole)
}

/// Both ends, the plain sender, the whole areas by their numbers, and the lengths with which these
/// are lent.
struct Bench<W: Write> {
    sender: Sender,
    receiver: Receiver,
    plain_sender: PlainSender,
    areas: [Vec<u8>; AREAS],
    lengths: [usize; AREAS],
    lines: Lines<W>,
}

impl<W: Write> Bench<W> {
    fn new(output: W) -> Bench<W> {
        Bench {
            sender: Sender::fresh(Settings(0), Agreed::BASE),
            receiver: Receiver::fresh(Settings(0), Agreed::BASE, Mode::Off, ControlMap::EMPTY),
            plain_sender: PlainSender::fresh(Agreed::BASE, Marks::EMPTY),
            areas: [END_AREA, END_AREA, END_AREA, END_AREA, OUT_AREA].map(|whole| vec![0; whole]),
            lengths: LENT,
            lines: Lines::new(output),
        }
    }

    fn run(&mut self, script: &[u8]) -> io::Result<()> {
        let mut script = Script { rest: script };
        while !script.rest.is_empty() {
            match script.command() {
                Some(command) => self.carry_out(command)?,
                None => {
                    self.lines.letter(b'E')?;
                    break;
                }
            }
        }
        self.lines.flush()
    }

    fn carry_out(&mut self, command: Command) -> io::Result<()> {
        match command {
            Command::OpenSender(settings, agreed) => match Sender::open(settings, agreed) {
                Ok(sender) => self.sender = sender,
                Err(number) => self.lines.refused(number)?,
            },
            Command::OpenReceiver(settings, agreed, plain, map) => {
                match Receiver::open(settings, agreed, plain, map) {
                    Ok(receiver) => self.receiver = receiver,
                    Err(number) => self.lines.refused(number)?,
                }
            }
            Command::OpenPair(settings, agreed, map, marks) => {
                match open_pair(settings, agreed, map, marks) {
                    Ok(pair) => (self.plain_sender, self.receiver) = pair,
                    Err(number) => self.lines.refused(number)?,
                }
            }
            Command::Load(name, packet) => self.load(name, packet)?,
            Command::Next(count) => self.next(count)?,
            Command::Receive(octets) => self.receive(octets)?,
            Command::Lend(lengths) => self.lengths[..OUT].copy_from_slice(&lengths),
            Command::LendOut(length) => self.lengths[OUT] = length,
            Command::Fill { area, at, octets } => self.fill(area, at, octets),
            Command::HandSender(sender) => self.sender = sender,
            Command::HandReceiver(receiver) => self.receiver = receiver,
            Command::HandPlainSender(sender) => self.plain_sender = sender,
            Command::SendPlain(packet) => self.send_plain(packet)?,
            Command::ShowStates => self.show_states()?,
            Command::ShowArea { area, at, count } => self.show_area(area, at, count)?,
        }
        Ok(())
    }

    fn load(&mut self, name: LaneName, packet: &[u8]) -> io::Result<()> {
        let area = match name {
            LaneName::Low => LOW,
            LaneName::High => HIGH,
        };
        let lent = &mut self.areas[area][..self.lengths[area]];
        match self.sender.load(name, lent, packet) {
            Loaded::Done => self.lines.letter(b'D'),
            Loaded::Refused(number) => self.lines.refused(number),
        }
    }

    fn next(&mut self, count: usize) -> io::Result<()> {
        let low = &self.areas[LOW][..self.lengths[LOW]];
        let high = &self.areas[HIGH][..self.lengths[HIGH]];
        for _ in 0..count {
            match self.sender.next_octet(low, high) {
                Next::Octet(octet) => {
                    self.lines.begin(b'O');
                    self.lines.octets(&[octet]);
                    self.lines.end()?;
                }
                Next::Idle => self.lines.letter(b'I')?,
                Next::Refused(number) => self.lines.refused(number)?,
            }
        }
        Ok(())
    }

    fn receive(&mut self, octets: &[u8]) -> io::Result<()> {
        let [_, _, first, second, _] = &mut self.areas;
        let mut lent: Areas = [
            &mut first[..self.lengths[FIRST]],
            &mut second[..self.lengths[SECOND]],
        ];
        for &octet in octets {
            match self.receiver.call(&mut lent, octet) {
                Answer::Quiet => {}
                Answer::Packet { area, length } => {
                    self.lines.begin(b'P');
                    self.lines.number(area);
                    self.lines.number(length);
                    self.lines.octets(shown(lent[area], length));
                    self.lines.end()?;
                }
                Answer::Held { count, replaced } => self.lines.held(count, replaced)?,
                Answer::Refused(number) => self.lines.refused(number)?,
            }
        }
        Ok(())
    }

    fn send_plain(&mut self, packet: &[u8]) -> io::Result<()> {
        let out = &mut self.areas[OUT][..self.lengths[OUT]];
        match self.plain_sender.send(packet, out) {
            Ok(length) => {
                self.lines.begin(b'W');
                self.lines.number(length);
                self.lines.octets(&out[..length]);
                self.lines.end()
            }
            Err(number) => self.lines.refused(number),
        }
    }

    /// What lies beyond the whole area is dropped; an area that is not there takes nothing.
    fn fill(&mut self, area: usize, at: usize, octets: &[u8]) {
        if let Some(area) = self.areas.get_mut(area) {
            let places = part(at, octets.len(), area.len());
            let kept = places.len();
            area[places].copy_from_slice(&octets[..kept]);
        }
    }

    fn show_states(&mut self) -> io::Result<()> {
        self.lines.numbers(b'S', &sender_numbers(&self.sender))?;
        self.lines.numbers(b'T', &receiver_numbers(&self.receiver))
    }

    /// An area that is not there has no octets.
    fn show_area(&mut self, area: usize, at: usize, count: usize) -> io::Result<()> {
        self.lines.begin(b'X');
        if let Some(area) = self.areas.get(area) {
            self.lines.octets(&area[part(at, count, area.len())]);
        }
        self.lines.end()
    }
}

fn exercise(input: &mut impl Read, output: impl Write) -> io::Result<()> {
    let mut script = Vec::new();
    input.read_to_end(&mut script)?;
    Bench::new(output).run(&script)
}

fn main() -> io::Result<()> {
    let mode = std::env::args().nth(1);
    let (mut input, output) = (io::stdin().lock(), io::stdout().lock());
    match mode.as_deref() {
        Some("capture") => capture(&mut input, output),
        Some("count") => count(&mut input, output),
        Some("exercise") => exercise(&mut input, output),
        _ => {
            eprintln!("usage: model capture|count|exercise");
            std::process::exit(2)
        }
    }
}
