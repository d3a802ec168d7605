//! A plain reader of event streams: a hand-written state machine, one byte at a time, nothing proved.
//! It is what `pedalfeed` is timed against, and a second opinion on what it prints.
//!
//!     plain [count] < stream      what `pedalfeed count` prints
//!     plain read < stream         what `pedalfeed read` prints

use std::io::{self, BufWriter, Read, Write};
use std::process::ExitCode;

const PIECE: usize = 64 * 1024;
const LINE_LIMIT: usize = 1_024;
const DATA_LIMIT: usize = 513;
const TEXT_LIMIT: usize = 32;
const RETRY_LIMIT: u32 = 3_600_000;
const RETRY_START: u32 = 3_000;
const PLACE_LIMIT: u64 = 4_294_967_295;

struct Event<'a> {
    id: &'a [u8],
    event_type: &'a [u8],
    data: &'a [u8],
}

trait Sink {
    fn keep(&mut self, event: Event<'_>) -> io::Result<()>;
}

struct Counting {
    events: u64,
}

impl Sink for Counting {
    fn keep(&mut self, _event: Event<'_>) -> io::Result<()> {
        self.events = self.events.saturating_add(1);
        Ok(())
    }
}

struct Printing<W: Write> {
    out: W,
}

impl<W: Write> Sink for Printing<W> {
    fn keep(&mut self, event: Event<'_>) -> io::Result<()> {
        self.out.write_all(b"event ")?;
        quote(&mut self.out, event.id)?;
        self.out.write_all(b" ")?;
        quote(&mut self.out, event.event_type)?;
        self.out.write_all(b" ")?;
        quote(&mut self.out, event.data)?;
        self.out.write_all(b"\n")
    }
}

fn quote<W: Write>(out: &mut W, text: &[u8]) -> io::Result<()> {
    out.write_all(b"\"")?;
    for &byte in text {
        match byte {
            b'"' => out.write_all(b"\\\"")?,
            b'\\' => out.write_all(b"\\\\")?,
            b'\n' => out.write_all(b"\\n")?,
            b'\r' => out.write_all(b"\\r")?,
            0x20..=0x7E => out.write_all(&[byte])?,
            _ => write!(out, "\\x{byte:02x}")?,
        }
    }
    out.write_all(b"\"")
}

/// What stopped the reading of a byte.
enum Stop {
    Fault(u32, &'static str),
    Output(io::Error),
}

impl From<io::Error> for Stop {
    fn from(error: io::Error) -> Stop {
        Stop::Output(error)
    }
}

struct Fault {
    number: u32,
    layer: &'static str,
    line: u64,
    byte: u64,
}

struct Reader<S: Sink> {
    sink: S,
    // decoder: the character begun, how many bytes it still lacks, and the range of the next
    begun: [u8; 4],
    have: usize,
    lacks: usize,
    low: u8,
    high: u8,
    first: bool,
    // lines
    line: [u8; LINE_LIMIT],
    len: usize,
    after_cr: bool,
    line_number: u64,
    // block
    id_buffer: Vec<u8>,
    type_buffer: Vec<u8>,
    data_buffer: Vec<u8>,
    // what outlives a stream
    last: Vec<u8>,
    retry: u32,
}

impl<S: Sink> Reader<S> {
    fn new(sink: S) -> Reader<S> {
        Reader {
            sink,
            begun: [0; 4],
            have: 0,
            lacks: 0,
            low: 0x80,
            high: 0xBF,
            first: true,
            line: [0; LINE_LIMIT],
            len: 0,
            after_cr: false,
            line_number: 1,
            id_buffer: Vec::with_capacity(TEXT_LIMIT),
            type_buffer: Vec::with_capacity(TEXT_LIMIT),
            data_buffer: Vec::with_capacity(DATA_LIMIT),
            last: Vec::with_capacity(TEXT_LIMIT),
            retry: RETRY_START,
        }
    }

    #[inline]
    fn push(&mut self, byte: u8) -> Result<(), Stop> {
        if self.lacks > 0 {
            return self.following(byte);
        }
        self.lead(byte)
    }

    #[inline]
    fn lead(&mut self, byte: u8) -> Result<(), Stop> {
        if byte < 0x80 {
            self.first = false;
            return self.ascii(byte);
        }
        let (lacks, low, high) = match byte {
            0xC2..=0xDF => (1, 0x80, 0xBF),
            0xE0 => (2, 0xA0, 0xBF),
            0xED => (2, 0x80, 0x9F),
            0xE1..=0xEF => (2, 0x80, 0xBF),
            0xF0 => (3, 0x90, 0xBF),
            0xF1..=0xF3 => (3, 0x80, 0xBF),
            0xF4 => (3, 0x80, 0x8F),
            _ => return self.replacement(),
        };
        self.begun[0] = byte;
        self.have = 1;
        self.lacks = lacks;
        self.low = low;
        self.high = high;
        Ok(())
    }

    fn following(&mut self, byte: u8) -> Result<(), Stop> {
        if byte < self.low || byte > self.high {
            self.lacks = 0;
            self.replacement()?;
            return self.lead(byte);
        }
        self.begun[self.have] = byte;
        self.have += 1;
        self.lacks -= 1;
        self.low = 0x80;
        self.high = 0xBF;
        if self.lacks > 0 {
            return Ok(());
        }
        let first = self.first;
        self.first = false;
        let (character, have) = (self.begun, self.have);
        if first && character[..have] == *b"\xEF\xBB\xBF" {
            return Ok(());
        }
        self.text(&character[..have])
    }

    fn replacement(&mut self) -> Result<(), Stop> {
        self.first = false;
        self.text(b"\xEF\xBF\xBD")
    }

    /// A character that is no line end joins the line.
    #[inline]
    fn text(&mut self, character: &[u8]) -> Result<(), Stop> {
        self.after_cr = false;
        let end = self.len + character.len();
        if end > LINE_LIMIT {
            return Err(Stop::Fault(8, "line"));
        }
        self.line[self.len..end].copy_from_slice(character);
        self.len = end;
        Ok(())
    }

    #[inline]
    fn ascii(&mut self, byte: u8) -> Result<(), Stop> {
        let after_cr = self.after_cr;
        self.after_cr = byte == b'\r';
        match byte {
            b'\n' if after_cr => Ok(()),
            b'\n' | b'\r' => self.end_line(),
            _ if self.len == LINE_LIMIT => Err(Stop::Fault(8, "line")),
            _ => {
                self.line[self.len] = byte;
                self.len += 1;
                Ok(())
            }
        }
    }

    fn end_line(&mut self) -> Result<(), Stop> {
        if self.len == 0 {
            self.blank_line()?;
        } else {
            self.field_line()?;
        }
        self.len = 0;
        self.line_number += 1;
        Ok(())
    }

    fn field_line(&mut self) -> Result<(), Stop> {
        let line = &self.line[..self.len];
        let (name, value) = match line.iter().position(|&byte| byte == b':') {
            None => (line, &[][..]),
            Some(colon) => {
                let value = &line[colon + 1..];
                (&line[..colon], value.strip_prefix(b" ").unwrap_or(value))
            }
        };
        match name {
            b"data" => {
                if self.data_buffer.len() + value.len() + 1 > DATA_LIMIT {
                    return Err(Stop::Fault(11, "field"));
                }
                self.data_buffer.extend_from_slice(value);
                self.data_buffer.push(b'\n');
            }
            b"event" => {
                if value.len() > TEXT_LIMIT {
                    return Err(Stop::Fault(10, "field"));
                }
                self.type_buffer.clear();
                self.type_buffer.extend_from_slice(value);
            }
            b"id" => {
                if value.len() > TEXT_LIMIT {
                    return Err(Stop::Fault(9, "field"));
                }
                if !value.contains(&0) {
                    self.id_buffer.clear();
                    self.id_buffer.extend_from_slice(value);
                }
            }
            b"retry" => {
                if !value.is_empty() && value.iter().all(u8::is_ascii_digit) {
                    self.retry = value.iter().fold(0, |time, &digit| {
                        (time * 10 + u32::from(digit - b'0')).min(RETRY_LIMIT)
                    });
                }
            }
            _ => {}
        }
        Ok(())
    }

    fn blank_line(&mut self) -> Result<(), Stop> {
        if let Some((_, data)) = self.data_buffer.split_last() {
            let event_type = match &self.type_buffer[..] {
                [] => b"message",
                given => given,
            };
            self.sink.keep(Event { id: &self.id_buffer, event_type, data })?;
        }
        self.last.clone_from(&self.id_buffer);
        self.data_buffer.clear();
        self.type_buffer.clear();
        Ok(())
    }

    /// Reads `input` as one stream, to its end or to a fault.
    fn read(&mut self, input: &mut impl Read) -> io::Result<Option<Fault>> {
        let mut piece = vec![0; PIECE];
        let mut before = 0_u64;
        loop {
            let count = match input.read(&mut piece) {
                Ok(0) => return Ok(None),
                Ok(count) => count,
                Err(error) if error.kind() == io::ErrorKind::Interrupted => continue,
                Err(error) => return Err(error),
            };
            for (at, &byte) in piece[..count].iter().enumerate() {
                match self.push(byte) {
                    Ok(()) => {}
                    Err(Stop::Output(error)) => return Err(error),
                    Err(Stop::Fault(number, layer)) => {
                        return Ok(Some(Fault {
                            number,
                            layer,
                            line: self.line_number.min(PLACE_LIMIT),
                            byte: (before + at as u64).min(PLACE_LIMIT),
                        }));
                    }
                }
            }
            before += count as u64;
        }
    }
}

fn finish<W: Write>(out: &mut W, last: &[u8], retry: u32, fault: Option<Fault>) -> io::Result<()> {
    out.write_all(b"last ")?;
    quote(out, last)?;
    writeln!(out, "\nretry {retry}")?;
    if let Some(f) = fault {
        writeln!(out, "fault {} {} line {} byte {}", f.number, f.layer, f.line, f.byte)?;
    }
    out.flush()
}

fn count() -> io::Result<()> {
    let mut reader = Reader::new(Counting { events: 0 });
    let fault = reader.read(&mut io::stdin().lock())?;
    let mut out = BufWriter::new(io::stdout().lock());
    writeln!(out, "events {}", reader.sink.events)?;
    finish(&mut out, &reader.last, reader.retry, fault)
}

fn read() -> io::Result<()> {
    let mut reader = Reader::new(Printing { out: BufWriter::new(io::stdout().lock()) });
    let fault = reader.read(&mut io::stdin().lock())?;
    finish(&mut reader.sink.out, &reader.last, reader.retry, fault)
}

fn main() -> ExitCode {
    let word = std::env::args().nth(1);
    let done = match word.as_deref() {
        None | Some("count") => count(),
        Some("read") => read(),
        Some(_) => {
            eprintln!("error: plain [count|read]");
            return ExitCode::FAILURE;
        }
    };
    match done {
        Ok(()) => ExitCode::SUCCESS,
        Err(error) => {
            eprintln!("error: {error}");
            ExitCode::FAILURE
        }
    }
}
