//! The COBS link of document 01 (frames of code blocks, two lanes, preemption) as a pair of
//! per-octet state machines, and the plain PPP that document 02's slip 5 has behind an FF frame: a
//! baseline for measurements. Safe Rust, std only.
//!
//!     rustc --edition 2021 -C opt-level=3 -o link link.rs
//!
//!     link capture < octets  > lines     receiver, both settings and plain reading on (its map
//!                                        empty): one line a report
//!     link send    < records > octets    sender: settings octet, then records of
//!                                        lane (L or H), wait (2), length (2), packet

use std::fs::File;
use std::hint::cold_path;
use std::io::{self, ErrorKind, Read, Write};
use std::ops::Range;
use std::os::fd::AsFd;
use std::process::ExitCode;

/// Closes a frame; inside a frame the octet 7E goes as 00.
const FLAG: u8 = 0x7E;
const STAND_IN: u8 = 0x00;
/// First octet of a resumed frame.
const RESUME: u8 = 0xD1;
/// First octet of a frame in plain PPP, as are all behind it; what is held goes.
const FOREIGN: u8 = 0xFF;
/// In plain PPP the octet behind it is changed by ESCAPE_BIT.
const ESCAPE: u8 = 0x7D;
const ESCAPE_BIT: u8 = 0x20;
/// Code of a full block: 207 data octets and no zero.
const FULL_CODE: u8 = 0xD0;
const FULL_BLOCK: usize = 207;
/// Code sent only to be broken off by the flag behind it.
const BREAK_CODE: u8 = 0x02;
/// D0 and a count of 3 to 15: so many zeros. E0 and a count to 30: so many data octets, two zeros.
const RUN_BASE: u8 = 0xD0;
const RUN_FEWEST: usize = 3;
const RUN_MOST: usize = 15;
const PAIR_BASE: u8 = 0xE0;
const PAIR_MOST: usize = 30;

const PACKET_SHORTEST: usize = 2;
const PACKET_LONGEST: usize = 2048;
const FCS_LENGTH: usize = 2;
const FRAME_SHORTEST: usize = PACKET_SHORTEST + FCS_LENGTH;
const FRAME_LONGEST: usize = PACKET_LONGEST + FCS_LENGTH;
const SEND_AREA: usize = PACKET_LONGEST + FCS_LENGTH;
const RECEIVE_AREA: usize = SEND_AREA + 1;

#[derive(Clone, Copy)]
struct Settings {
    /// Codes D3-FE may be used.
    zxe: bool,
    /// Preemption.
    pre: bool,
}

impl From<u8> for Settings {
    fn from(octet: u8) -> Settings {
        Settings {
            zxe: octet & 1 != 0,
            pre: octet & 2 != 0,
        }
    }
}

// ------------------------------------------------------------------------------ check sequence

const FCS_START: u32 = 0xFFFF;
const FCS_GOOD: u32 = 0xF0B8;

static FCS_TABLE: [u32; 256] = {
    let mut table = [0; 256];
    let mut place = 0;
    while place < 256 {
        let mut entry = place as u32;
        let mut step = 0;
        while step < 8 {
            entry = (entry >> 1) ^ if entry & 1 == 1 { 0x8408 } else { 0 };
            step += 1;
        }
        table[place] = entry;
        place += 1;
    }
    table
};

#[inline(always)]
fn fcs_step(register: u32, octet: u8) -> u32 {
    (register >> 8) ^ FCS_TABLE[((register ^ u32::from(octet)) & 0xFF) as usize]
}

/// Two steps; the register is as wide as both octets, so that they go in together.
#[inline(always)]
fn fcs_two_steps(register: u32, octets: [u8; 2]) -> u32 {
    let register = register ^ u32::from(u16::from_le_bytes(octets));
    fcs_step(fcs_step(register, 0), 0)
}

fn fcs_register(octets: &[u8]) -> u32 {
    octets
        .iter()
        .fold(FCS_START, |register, &octet| fcs_step(register, octet))
}

// ------------------------------------------------------------------------------------ receiver

/// Numbers of the refusal table.
const NOT_AGREED: u8 = 6;
const NO_SUCH_CODE: u8 = 7;
const NOTHING_HELD: u8 = 8;
const RESUME_ALONE: u8 = 9;
const TOO_MUCH: u8 = 10;
const ENDS_IN_BLOCK: u8 = 11;
const LAST_FULL: u8 = 12;
const TOO_LITTLE: u8 = 13;
const BAD_FCS: u8 = 14;
const ENDS_IN_ESCAPE: u8 = 18;
const HELD_CHANGED: u8 = 21;

/// Foreign says that the octet is a plain frame's first, and that the receiver is done with.
#[derive(Clone, Copy)]
enum Report {
    Quiet,
    Packet { length: u16 },
    Held { count: u16, replaced: bool },
    Refused(u8),
    Foreign,
}

trait Area {
    /// The packet just reported.
    fn packet(&self, length: u16) -> &[u8];
}

#[derive(Clone, Copy, PartialEq, Eq)]
enum Phase {
    /// No octet since the last flag.
    Outside,
    /// D1 alone so far.
    Resumed,
    /// In a block or behind it; its zeros are written when the octet behind it comes.
    Block,
    /// As Block, and the block has more data than the work area takes.
    Overlong,
    /// The rest of the frame is skipped.
    Refused,
    /// The frame is a plain one; what is held goes with the receiver.
    Foreign,
}

/// The part of a receiver's state that every data octet changes or needs.
#[derive(Clone, Copy)]
struct Cursor {
    /// Where the next octet goes; places count through both areas.
    place: usize,
    /// Where the data of the block ends: data is left while the place is below it.
    block_end: usize,
    /// The check register over the octets decoded.
    register: u32,
}

/// The areas and the part of the state that only codes and flags change or need.
struct Frame {
    settings: Settings,
    phase: Phase,
    /// Zeros of the block, none for D0.
    zeros: u8,
    refusal: u8,
    resumed: bool,
    /// Where the work area begins.
    base: usize,
    /// Count and register of the octets held.
    held: Option<(usize, u32)>,
    areas: [[u8; RECEIVE_AREA]; 2],
}

struct Receiver {
    cursor: Cursor,
    frame: Box<Frame>,
}

impl Receiver {
    fn open(settings: Settings) -> Receiver {
        Receiver {
            cursor: Cursor::fresh(0),
            frame: Box::new(Frame {
                settings,
                phase: Phase::Outside,
                zeros: 0,
                refusal: 0,
                resumed: false,
                base: 0,
                held: None,
                areas: [[0; RECEIVE_AREA]; 2],
            }),
        }
    }

    #[inline(always)]
    fn receive(&mut self, octet: u8) -> Report {
        let Receiver { cursor, frame } = self;
        if octet == FLAG {
            cold_path();
            let report = frame.flag(*cursor);
            *cursor = Cursor::fresh(frame.base);
            return report;
        }
        if cursor.place < cursor.block_end {
            frame.data(cursor, from_line(octet));
        } else if frame.phase != Phase::Refused {
            cold_path();
            *cursor = frame.code(*cursor, from_line(octet));
            if frame.phase == Phase::Foreign {
                cold_path();
                return Report::Foreign;
            }
        }
        Report::Quiet
    }
}

impl Cursor {
    /// At the beginning of an area.
    fn fresh(base: usize) -> Cursor {
        Cursor {
            place: base,
            block_end: base,
            register: FCS_START,
        }
    }
}

impl Area for Frame {
    fn packet(&self, length: u16) -> &[u8] {
        &self.areas.as_flattened()[self.base..][..usize::from(length)]
    }
}

impl Frame {
    /// A decoded octet.
    #[inline(always)]
    fn data(&mut self, cursor: &mut Cursor, octet: u8) {
        self.areas.as_flattened_mut()[cursor.place] = octet;
        cursor.place += 1;
        cursor.register = fcs_step(cursor.register, octet);
    }

    /// An octet that isn't data.
    #[inline(never)]
    fn code(&mut self, mut cursor: Cursor, code: u8) -> Cursor {
        match self.phase {
            Phase::Outside if code == FOREIGN => {
                self.phase = Phase::Foreign;
                cursor
            }
            Phase::Outside if code == RESUME => self.resume(cursor),
            Phase::Outside | Phase::Resumed => self.begin_block(cursor, code),
            Phase::Block => {
                let end = cursor.place + usize::from(self.zeros);
                if end > self.base + RECEIVE_AREA {
                    return self.refuse(cursor, TOO_MUCH);
                }
                while cursor.place < end {
                    self.data(&mut cursor, 0);
                }
                self.begin_block(cursor, code)
            }
            Phase::Overlong => self.refuse(cursor, TOO_MUCH),
            Phase::Refused | Phase::Foreign => cursor,
        }
    }

    #[inline(always)]
    fn resume(&mut self, cursor: Cursor) -> Cursor {
        self.resumed = true;
        if !self.settings.pre {
            return self.refuse(cursor, NOT_AGREED);
        }
        match self.held.take() {
            None => self.refuse(cursor, NOTHING_HELD),
            Some((count, register)) => {
                let base = RECEIVE_AREA - self.base;
                let octets = &self.areas.as_flattened()[base..][..count];
                if octets.iter().fold(FCS_START, |r, &octet| fcs_step(r, octet)) != register {
                    return self.refuse(cursor, HELD_CHANGED);
                }
                self.base = base;
                self.phase = Phase::Resumed;
                let place = self.base + count;
                Cursor {
                    place,
                    block_end: place,
                    register,
                }
            }
        }
    }

    #[inline(always)]
    fn begin_block(&mut self, cursor: Cursor, code: u8) -> Cursor {
        let (data, zeros) = match code {
            0x01..=0xCF => (code - 1, 1),
            FULL_CODE => (FULL_BLOCK as u8, 0),
            0xD3..=0xFE if !self.settings.zxe => return self.refuse(cursor, NOT_AGREED),
            0xD3..=0xDF => (0, code - RUN_BASE),
            0xE0..=0xFE => (code - PAIR_BASE, 2),
            0x00 | 0xD1 | 0xD2 | 0xFF => return self.refuse(cursor, NO_SUCH_CODE),
        };
        let (end, most) = (cursor.place + usize::from(data), self.base + RECEIVE_AREA);
        self.zeros = zeros;
        self.phase = if end > most {
            Phase::Overlong
        } else {
            Phase::Block
        };
        Cursor {
            block_end: end.min(most),
            ..cursor
        }
    }

    #[inline(always)]
    fn refuse(&mut self, cursor: Cursor, number: u8) -> Cursor {
        self.refusal = number;
        self.phase = Phase::Refused;
        Cursor {
            block_end: cursor.place,
            ..cursor
        }
    }

    #[inline(never)]
    fn flag(&mut self, cursor: Cursor) -> Report {
        let report = self.report(cursor);
        match report {
            Report::Held { count, .. } => {
                self.held = Some((usize::from(count), cursor.register));
                self.base = RECEIVE_AREA - self.base;
            }
            Report::Packet { .. } | Report::Refused(_) if self.resumed => self.held = None,
            _ => {}
        }
        self.phase = Phase::Outside;
        self.resumed = false;
        report
    }

    #[inline(always)]
    fn report(&mut self, mut cursor: Cursor) -> Report {
        match self.phase {
            Phase::Outside | Phase::Foreign => return Report::Quiet,
            Phase::Refused => return Report::Refused(self.refusal),
            Phase::Resumed => return Report::Refused(RESUME_ALONE),
            Phase::Block if cursor.place == cursor.block_end => {}
            Phase::Block | Phase::Overlong if self.settings.pre => {
                let count = (cursor.place - self.base) as u16;
                let replaced = !self.resumed && self.held.is_some();
                return Report::Held { count, replaced };
            }
            Phase::Block | Phase::Overlong => return Report::Refused(ENDS_IN_BLOCK),
        }
        if self.zeros == 0 {
            return Report::Refused(LAST_FULL);
        }
        // The last zero is the phantom; the others belong to the frame.
        let end = cursor.place + usize::from(self.zeros) - 1;
        if end >= self.base + RECEIVE_AREA {
            return Report::Refused(TOO_MUCH);
        }
        while cursor.place < end {
            self.data(&mut cursor, 0);
        }
        let length = end - self.base;
        if length < FRAME_SHORTEST {
            Report::Refused(TOO_LITTLE)
        } else if cursor.register != FCS_GOOD {
            Report::Refused(BAD_FCS)
        } else {
            Report::Packet {
                length: (length - FCS_LENGTH) as u16,
            }
        }
    }
}

#[inline(always)]
fn from_line(octet: u8) -> u8 {
    if octet == STAND_IN {
        cold_path();
        FLAG
    } else {
        octet
    }
}

// ------------------------------------------------------------------------------ plain receiver

/// An octet more than the longest frame: the area is full when the frame is too long.
const PLAIN_AREA: usize = FRAME_LONGEST + 1;
/// So many octets are looked at and copied together.
const WORD: usize = 8;

/// The receiver of plain PPP.
struct Plain {
    /// Where the next octet goes.
    place: usize,
    /// The check register over the octets decoded.
    register: u32,
    /// Behind an escape.
    escaped: bool,
    area: [u8; PLAIN_AREA],
}

impl Area for Plain {
    fn packet(&self, length: u16) -> &[u8] {
        &self.area[..usize::from(length)]
    }
}

impl Plain {
    /// Behind the FF that begins the first frame.
    fn open() -> Plain {
        Plain {
            place: 1,
            register: fcs_step(FCS_START, FOREIGN),
            escaped: false,
            area: [FOREIGN; PLAIN_AREA],
        }
    }

    /// Takes octets from the line, up to a flag or all.
    #[inline(never)]
    fn receive(&mut self, line: &mut &[u8]) -> Report {
        let (mut place, mut register, mut escaped) = (self.place, self.register, self.escaped);
        let mut rest = *line;
        loop {
            while !escaped && place <= PLAIN_AREA - WORD {
                let Some((word, behind)) = rest.split_first_chunk::<WORD>() else {
                    break;
                };
                let room = &mut self.area[place..][..WORD];
                room.copy_from_slice(word);
                let marks = escapes_and_flags(*word);
                if marks == 0 {
                    for &two in word.as_chunks().0 {
                        register = fcs_two_steps(register, two);
                    }
                    place += WORD;
                    rest = behind;
                    continue;
                }
                let count = (marks.trailing_zeros() / 8) as usize;
                for &octet in &word[..count] {
                    register = fcs_step(register, octet);
                }
                place += count;
                rest = &rest[count..];
                match *rest {
                    [ESCAPE, octet, ref behind @ ..] if octet != FLAG => {
                        room[count] = octet ^ ESCAPE_BIT;
                        register = fcs_step(register, octet ^ ESCAPE_BIT);
                        place += 1;
                        rest = behind;
                    }
                    _ => break,
                }
            }
            if place == PLAIN_AREA {
                let flag = rest.iter().position(|&octet| octet == FLAG);
                rest = &rest[flag.unwrap_or(rest.len())..];
            }
            let Some((&octet, behind)) = rest.split_first() else {
                break;
            };
            rest = behind;
            if octet == FLAG {
                *line = rest;
                return self.flag(place, register, escaped);
            }
            if octet == ESCAPE && !escaped {
                escaped = true;
                continue;
            }
            let octet = if escaped { octet ^ ESCAPE_BIT } else { octet };
            escaped = false;
            self.area[place] = octet;
            place += 1;
            register = fcs_step(register, octet);
        }
        *line = rest;
        (self.place, self.register, self.escaped) = (place, register, escaped);
        Report::Quiet
    }

    #[inline(always)]
    fn flag(&mut self, length: usize, register: u32, escaped: bool) -> Report {
        (self.place, self.register, self.escaped) = (0, FCS_START, false);
        if length > FRAME_LONGEST {
            Report::Refused(TOO_MUCH)
        } else if escaped {
            Report::Refused(ENDS_IN_ESCAPE)
        } else if length == 0 {
            Report::Quiet
        } else if length < FRAME_SHORTEST {
            Report::Refused(TOO_LITTLE)
        } else if register != FCS_GOOD {
            Report::Refused(BAD_FCS)
        } else {
            Report::Packet {
                length: (length - FCS_LENGTH) as u16,
            }
        }
    }
}

/// 0 if no octet is an escape or a flag; else the lowest bit set is in the first that is.
#[inline(always)]
fn escapes_and_flags(octets: [u8; WORD]) -> u64 {
    const ONES: u64 = u64::from_le_bytes([1; WORD]);
    const TOPS: u64 = ONES << 7;
    let word = u64::from_le_bytes(octets);
    // What is sought becomes 0. Of octets below 80 the subtraction sets the top bit of the first
    // that is 0, and of none before it.
    let escapes = word ^ (ONES * ESCAPE as u64);
    let flags = word ^ (ONES * FLAG as u64);
    (escapes.wrapping_sub(ONES) | flags.wrapping_sub(ONES)) & !word & TOPS
}

// -------------------------------------------------------------------------------------- sender

#[derive(Clone, Copy, PartialEq, Eq)]
enum Lane {
    Low,
    High,
}

impl Lane {
    /// Where the lane's area begins in the areas put one behind the other.
    fn base(self) -> usize {
        self as usize * SEND_AREA
    }
}

/// Where the sender is: every data octet changes or needs this.
#[derive(Clone, Copy)]
struct Spot {
    /// Place in D of the lane on the line; places count through both areas.
    place: usize,
    /// Where the data of the block ends: data is left while the place is below it.
    block_end: usize,
}

/// The areas and the part of the state that only the other steps change or need.
struct Lanes {
    settings: Settings,
    line: Option<Lane>,
    /// Zeros due behind the data of the block; they are covered by the step that comes next.
    zeros: u8,
    cut_due: bool,
    /// Where a suspended low lane goes on.
    suspended: Option<usize>,
    /// Behind each lane's frame, at its phantom; 0 when the lane is empty.
    frame_end: [usize; 2],
    areas: [[u8; SEND_AREA]; 2],
}

struct Sender {
    spot: Spot,
    lanes: Box<Lanes>,
}

impl Sender {
    fn open(settings: Settings) -> Sender {
        Sender {
            spot: Spot {
                place: 0,
                block_end: 0,
            },
            lanes: Box::new(Lanes {
                settings,
                line: None,
                zeros: 0,
                cut_due: false,
                suspended: None,
                frame_end: [0; 2],
                areas: [[0; SEND_AREA]; 2],
            }),
        }
    }

    #[inline(always)]
    fn holds(&self, lane: Lane) -> bool {
        self.lanes.holds(lane)
    }

    /// Loads an empty lane; false if the packet's length is refused.
    fn load(&mut self, lane: Lane, packet: &[u8]) -> bool {
        if !(PACKET_SHORTEST..=PACKET_LONGEST).contains(&packet.len()) {
            return false;
        }
        self.lanes.load(lane, packet);
        // Step 4 with data left: the low lane on the line drops it, its flag is due. Only here can
        // the high lane become loaded while the low one is on the line.
        let Sender { spot, lanes } = self;
        if lane == Lane::High
            && lanes.line == Some(Lane::Low)
            && lanes.settings.pre
            && spot.place < spot.block_end
        {
            spot.block_end = spot.place;
            lanes.zeros = 0;
            lanes.cut_due = true;
        }
        true
    }

    /// The next octet for the line; None is Idle.
    #[inline(always)]
    fn next_octet(&mut self) -> Option<u8> {
        let Sender { spot, lanes } = self;
        // Step 5.
        if spot.place < spot.block_end {
            let octet = lanes.areas.as_flattened()[spot.place];
            spot.place += 1;
            Some(to_line(octet))
        } else {
            cold_path();
            let (after, octet) = lanes.other_steps(*spot);
            *spot = after;
            octet
        }
    }
}

impl Lanes {
    #[inline(always)]
    fn holds(&self, lane: Lane) -> bool {
        self.frame_end[lane as usize] != 0
    }

    #[inline(never)]
    fn load(&mut self, lane: Lane, packet: &[u8]) {
        let (body, check) = self.areas[lane as usize].split_at_mut(packet.len());
        body.copy_from_slice(packet);
        check[..FCS_LENGTH].copy_from_slice(&(!fcs_register(packet) as u16).to_le_bytes());
        self.frame_end[lane as usize] = lane.base() + packet.len() + FCS_LENGTH;
    }

    /// All steps but 5.
    #[inline(never)]
    fn other_steps(&mut self, spot: Spot) -> (Spot, Option<u8>) {
        // Step 1.
        if self.cut_due {
            self.cut_due = false;
            self.suspended = Some(spot.place);
            self.line = None;
            return (spot, Some(FLAG));
        }
        // Step 2.
        let (lane, place) = match self.line {
            Some(lane) => (lane, spot.place + usize::from(self.zeros)),
            None if self.holds(Lane::High) => (Lane::High, Lane::High.base()),
            None if self.holds(Lane::Low) => match self.suspended.take() {
                Some(place) => {
                    self.line = Some(Lane::Low);
                    return (
                        Spot {
                            place,
                            block_end: place,
                        },
                        Some(RESUME),
                    );
                }
                None => (Lane::Low, Lane::Low.base()),
            },
            None => return (spot, None),
        };
        self.zeros = 0;
        let spot = Spot {
            place,
            block_end: place,
        };
        // Step 3.
        let end = self.frame_end[lane as usize];
        if place > end {
            self.frame_end[lane as usize] = 0;
            self.line = None;
            return (spot, Some(FLAG));
        }
        self.line = Some(lane);
        // Step 4 with no data left.
        if lane == Lane::Low && self.settings.pre && self.holds(Lane::High) {
            self.cut_due = true;
            return (spot, Some(BREAK_CODE));
        }
        // Step 6.
        let block = choose(&self.areas.as_flattened()[place..end], self.settings.zxe);
        self.zeros = block.zeros;
        (
            Spot {
                place,
                block_end: place + usize::from(block.data),
            },
            Some(to_line(block.code)),
        )
    }
}

struct Block {
    code: u8,
    data: u8,
    zeros: u8,
}

/// The sender's choice of a block, the phantom zero being behind `rest`.
#[inline(always)]
fn choose(rest: &[u8], zxe: bool) -> Block {
    let window = &rest[..rest.len().min(FULL_BLOCK)];
    let data = window
        .iter()
        .position(|&octet| octet == 0)
        .unwrap_or(window.len());
    if data == FULL_BLOCK {
        return Block {
            code: FULL_CODE,
            data: FULL_BLOCK as u8,
            zeros: 0,
        };
    }
    if zxe && data <= PAIR_MOST {
        let behind = &rest[data..];
        let mut zeros = behind
            .iter()
            .take(RUN_MOST)
            .take_while(|&&octet| octet == 0)
            .count();
        if zeros == behind.len() && zeros < RUN_MOST {
            zeros += 1;
        }
        if data == 0 && zeros >= RUN_FEWEST {
            return Block {
                code: RUN_BASE + zeros as u8,
                data: 0,
                zeros: zeros as u8,
            };
        }
        if zeros >= 2 {
            return Block {
                code: PAIR_BASE + data as u8,
                data: data as u8,
                zeros: 2,
            };
        }
    }
    Block {
        code: data as u8 + 1,
        data: data as u8,
        zeros: 1,
    }
}

#[inline(always)]
fn to_line(octet: u8) -> u8 {
    if octet == FLAG {
        cold_path();
        STAND_IN
    } else {
        octet
    }
}

// ------------------------------------------------------------------------------------- capture

const PIECE: usize = 1 << 17;
/// "P", a length of four digits, three characters an octet, line feed.
const LONGEST_LINE: usize = 1 + 5 + 3 * PACKET_LONGEST + 1;

static HEX: [[u8; 2]; 256] = {
    const DIGITS: &[u8; 16] = b"0123456789ABCDEF";
    let mut table = [[0; 2]; 256];
    let mut octet = 0;
    while octet < 256 {
        table[octet] = [DIGITS[octet / 16], DIGITS[octet % 16]];
        octet += 1;
    }
    table
};

/// Lines, gathered and written in large pieces.
struct Lines<W: Write> {
    output: W,
    buffer: Vec<u8>,
    used: usize,
}

impl<W: Write> Lines<W> {
    fn new(output: W) -> Lines<W> {
        Lines {
            output,
            buffer: vec![0; PIECE],
            used: 0,
        }
    }

    #[inline(never)]
    fn report(&mut self, report: Report, area: &impl Area) -> io::Result<()> {
        if self.used + LONGEST_LINE > self.buffer.len() {
            self.flush()?;
        }
        let line = &mut self.buffer[self.used..][..LONGEST_LINE];
        let end = match report {
            Report::Quiet | Report::Foreign => return Ok(()),
            Report::Packet { length } => {
                line[0] = b'P';
                let at = number(line, 1, length);
                octets(line, at, area.packet(length))
            }
            Report::Held { count, replaced } => {
                line[0] = b'H';
                let at = number(line, 1, count);
                line[at] = b' ';
                line[at + 1] = b'0' + u8::from(replaced);
                at + 2
            }
            Report::Refused(refusal) => {
                line[0] = b'R';
                number(line, 1, u16::from(refusal))
            }
        };
        line[end] = b'\n';
        self.used += end + 1;
        Ok(())
    }

    fn flush(&mut self) -> io::Result<()> {
        self.output.write_all(&self.buffer[..self.used])?;
        self.used = 0;
        Ok(())
    }
}

/// A space and a number of up to four digits at a place of the line; gives the place behind.
#[inline(always)]
fn number(line: &mut [u8], at: usize, number: u16) -> usize {
    line[at] = b' ';
    let digits =
        1 + usize::from(number >= 10) + usize::from(number >= 100) + usize::from(number >= 1000);
    let mut rest = number;
    for place in line[at + 1..][..digits].iter_mut().rev() {
        *place = b'0' + (rest % 10) as u8;
        rest /= 10;
    }
    at + 1 + digits
}

/// A space and two digits for each octet; gives the place behind.
#[inline(always)]
fn octets(line: &mut [u8], at: usize, octets: &[u8]) -> usize {
    for (place, &octet) in line[at..].chunks_exact_mut(3).zip(octets) {
        place[0] = b' ';
        place[1..].copy_from_slice(&HEX[usize::from(octet)]);
    }
    at + 3 * octets.len()
}

/// What is captured, read in large pieces.
struct Pieces<R: Read> {
    input: R,
    piece: Vec<u8>,
    /// What is left of the piece.
    rest: Range<usize>,
}

impl<R: Read> Pieces<R> {
    fn new(input: R) -> Pieces<R> {
        Pieces {
            input,
            piece: vec![0; PIECE],
            rest: 0..0,
        }
    }

    /// What is left of the piece, or else the next one; empty at the input's end.
    fn take(&mut self) -> io::Result<&[u8]> {
        while self.rest.is_empty() {
            match self.input.read(&mut self.piece) {
                Ok(0) => break,
                Ok(count) => self.rest = 0..count,
                Err(error) if error.kind() == ErrorKind::Interrupted => {}
                Err(error) => return Err(error),
            }
        }
        let taken = self.rest.clone();
        self.rest.start = taken.end;
        Ok(&self.piece[taken])
    }

    /// The last so many of the octets taken are left after all.
    fn leave(&mut self, count: usize) {
        self.rest.start -= count;
    }
}

/// Up to the input's end, or behind a first FF; whether it is the latter.
#[inline(never)]
fn capture_cobs<R: Read, W: Write>(
    pieces: &mut Pieces<R>,
    lines: &mut Lines<W>,
) -> io::Result<bool> {
    let mut receiver = Receiver::open(Settings::from(3));
    loop {
        let piece = pieces.take()?;
        if piece.is_empty() {
            return Ok(false);
        }
        let mut octets = piece.iter();
        for &octet in octets.by_ref() {
            match receiver.receive(octet) {
                Report::Quiet => {}
                Report::Foreign => {
                    let left = octets.len();
                    pieces.leave(left);
                    return Ok(true);
                }
                report => lines.report(report, &*receiver.frame)?,
            }
        }
    }
}

#[inline(never)]
fn capture_plain<R: Read, W: Write>(
    pieces: &mut Pieces<R>,
    lines: &mut Lines<W>,
) -> io::Result<()> {
    let mut receiver = Plain::open();
    loop {
        let mut octets = pieces.take()?;
        if octets.is_empty() {
            return Ok(());
        }
        while !octets.is_empty() {
            match receiver.receive(&mut octets) {
                Report::Quiet => {}
                report => lines.report(report, &receiver)?,
            }
        }
    }
}

fn capture(input: impl Read, output: impl Write) -> io::Result<()> {
    let mut pieces = Pieces::new(input);
    let mut lines = Lines::new(output);
    if capture_cobs(&mut pieces, &mut lines)? {
        capture_plain(&mut pieces, &mut lines)?;
    }
    lines.flush()
}

// ---------------------------------------------------------------------------------------- send

/// The octets a sender has sent, gathered and written in large pieces.
struct Line<W: Write> {
    output: W,
    buffer: Vec<u8>,
    used: usize,
}

impl<W: Write> Line<W> {
    fn new(output: W) -> Line<W> {
        Line {
            output,
            buffer: vec![0; PIECE],
            used: 0,
        }
    }

    /// Sends octets while `more` says so, at most `most`; stops at Idle.
    #[inline(never)]
    fn send(
        &mut self,
        sender: &mut Sender,
        most: usize,
        more: impl Fn(&Sender) -> bool,
    ) -> io::Result<()> {
        let mut left = most;
        while left > 0 && more(sender) {
            if self.used == self.buffer.len() {
                self.flush()?;
            }
            let free = &mut self.buffer[self.used..];
            let room = free.len().min(left);
            let mut sent = 0;
            for place in &mut free[..room] {
                if !more(sender) {
                    break;
                }
                match sender.next_octet() {
                    Some(octet) => *place = octet,
                    None => {
                        self.used += sent;
                        return Ok(());
                    }
                }
                sent += 1;
            }
            self.used += sent;
            left -= sent;
        }
        Ok(())
    }

    fn flush(&mut self) -> io::Result<()> {
        self.output.write_all(&self.buffer[..self.used])?;
        self.used = 0;
        Ok(())
    }
}

fn invalid(message: &str) -> io::Error {
    io::Error::new(ErrorKind::InvalidData, message)
}

/// Fills `places`; false if the input has ended before the first.
fn read_whole(input: &mut impl Read, places: &mut [u8]) -> io::Result<bool> {
    let mut filled = 0;
    while filled < places.len() {
        match input.read(&mut places[filled..]) {
            Ok(0) if filled == 0 => return Ok(false),
            Ok(0) => return Err(invalid("record cut short")),
            Ok(count) => filled += count,
            Err(error) if error.kind() == ErrorKind::Interrupted => {}
            Err(error) => return Err(error),
        }
    }
    Ok(true)
}

fn send_records<W: Write>(mut input: impl Read, line: &mut Line<W>) -> io::Result<()> {
    let mut settings = [0];
    if !read_whole(&mut input, &mut settings)? {
        return Err(invalid("no settings octet"));
    }
    let mut sender = Sender::open(Settings::from(settings[0]));
    let mut packet = vec![0; usize::from(u16::MAX)];
    let mut head = [0; 5];
    while read_whole(&mut input, &mut head)? {
        let [lane, wait_high, wait_low, length_high, length_low] = head;
        let lane = match lane {
            b'L' => Lane::Low,
            b'H' => Lane::High,
            _ => return Err(invalid("record with no such lane")),
        };
        let wait = usize::from(u16::from_be_bytes([wait_high, wait_low]));
        let length = usize::from(u16::from_be_bytes([length_high, length_low]));
        let packet = &mut packet[..length];
        if length > 0 && !read_whole(&mut input, packet)? {
            return Err(invalid("record cut short"));
        }
        line.send(&mut sender, wait, |_| true)?;
        match lane {
            Lane::Low => line.send(&mut sender, usize::MAX, |sender| sender.holds(Lane::Low))?,
            Lane::High => line.send(&mut sender, usize::MAX, |sender| sender.holds(Lane::High))?,
        }
        if !sender.load(lane, packet) {
            return Err(invalid("load refused: packet not of 2 to 2048 octets"));
        }
    }
    line.send(&mut sender, usize::MAX, |_| true)
}

#[inline(never)]
fn send(input: impl Read, output: impl Write) -> io::Result<()> {
    let mut line = Line::new(output);
    let outcome = send_records(io::BufReader::with_capacity(PIECE, input), &mut line);
    line.flush()?;
    outcome
}

/// Standard output as a file, without the buffer for lines that io::Stdout has.
fn stdout() -> io::Result<File> {
    Ok(File::from(io::stdout().as_fd().try_clone_to_owned()?))
}

fn main() -> ExitCode {
    let mode = std::env::args().nth(1);
    let outcome = match mode.as_deref() {
        Some("capture") => stdout().and_then(|output| capture(io::stdin().lock(), output)),
        Some("send") => stdout().and_then(|output| send(io::stdin().lock(), output)),
        _ => {
            eprintln!("usage: link capture|send");
            return ExitCode::from(2);
        }
    };
    match outcome {
        Ok(()) => ExitCode::SUCCESS,
        Err(error) => {
            eprintln!("link: {error}");
            ExitCode::FAILURE
        }
    }
}
