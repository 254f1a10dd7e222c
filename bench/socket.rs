//! A client's WebSocket, and the end of a program. bench/load.rs and bench/news.rs use it.

use std::io::{self, Read, Write};
use std::net::TcpStream;
use std::process;
use std::time::Duration;

const WAIT: Duration = Duration::from_secs(60);
const HEAD_END: &[u8] = b"\r\n\r\n";

/// A WebSocket, with the received bytes and how many of them are consumed.
pub struct Socket {
    sender: Sender,
    input: Vec<u8>,
    taken: usize,
}

/// The half of a WebSocket that sends.
pub struct Sender {
    stream: TcpStream,
    mask: u32,
    frames: Vec<u8>,
}

/// Ends the program with a line.
pub fn fail(text: &str) -> ! {
    eprintln!("bench: {text}");
    process::exit(1)
}

impl Socket {
    /// Connects and performs the handshake.
    pub fn open(address: &str, number: usize) -> io::Result<Socket> {
        let stream = TcpStream::connect(address)?;
        stream.set_nodelay(true)?;
        stream.set_read_timeout(Some(WAIT))?;
        stream.set_write_timeout(Some(WAIT))?;
        let mask = 0x9e37_79b9_u32.wrapping_mul(number as u32 + 1);
        let mut socket = Socket {
            sender: Sender {
                stream,
                mask,
                frames: Vec::new(),
            },
            input: Vec::new(),
            taken: 0,
        };
        socket.sender.stream.write_all(
            b"GET / HTTP/1.1\r\nHost: localhost\r\nUpgrade: websocket\r\nConnection: Upgrade\r\n\
              Sec-WebSocket-Key: dGhlIHNhbXBsZSBub25jZQ==\r\nSec-WebSocket-Version: 13\r\n\r\n",
        )?;
        let end = loop {
            socket.fill()?;
            if let Some(place) = socket.input.windows(4).position(|part| part == HEAD_END) {
                break place + 4;
            }
        };
        if !socket.input.starts_with(b"HTTP/1.1 101") {
            fail("the handshake was refused");
        }
        socket.taken = end;
        Ok(socket)
    }

    /// Reads more bytes.
    fn fill(&mut self) -> io::Result<()> {
        self.input.drain(..self.taken);
        self.taken = 0;
        let mut part = [0; 16384];
        let count = self.sender.stream.read(&mut part)?;
        if count == 0 {
            fail("the server ended a session");
        }
        self.input.extend_from_slice(&part[..count]);
        Ok(())
    }

    /// Sends one frame.
    pub fn send(&mut self, opcode: u8, payload: &[u8]) -> io::Result<()> {
        self.sender.send(opcode, payload)
    }

    /// Adds a frame to those that wait to be sent.
    #[allow(dead_code)]
    pub fn add(&mut self, opcode: u8, payload: &[u8]) {
        self.sender.add(opcode, payload);
    }

    /// Sends the frames that wait, by one call.
    #[allow(dead_code)]
    pub fn flush(&mut self) -> io::Result<()> {
        self.sender.flush()
    }

    /// Returns whether a whole frame was received that `receive` has not returned.
    #[allow(dead_code)]
    pub fn has_frame(&self) -> bool {
        frame_in(&self.input[self.taken..]).is_some()
    }

    /// A second sender of the same connection.
    #[allow(dead_code)]
    pub fn sender(&self) -> io::Result<Sender> {
        Ok(Sender {
            stream: self.sender.stream.try_clone()?,
            mask: !self.sender.mask,
            frames: Vec::new(),
        })
    }

    /// Reads the payload of the next frame.
    pub fn receive(&mut self) -> io::Result<String> {
        loop {
            if let Some((start, end)) = frame_in(&self.input[self.taken..]) {
                let payload = &self.input[self.taken + start..self.taken + end];
                let text = String::from_utf8_lossy(payload).into_owned();
                self.taken += end;
                return Ok(text);
            }
            self.fill()?;
        }
    }

    /// Sends a request and returns the reply.
    pub fn ask(&mut self, request: &str) -> io::Result<String> {
        self.send(1, request.as_bytes())?;
        self.receive()
    }
}

/// Returns where the payload of the first frame begins and ends, if the frame is complete.
fn frame_in(input: &[u8]) -> Option<(usize, usize)> {
    let (start, length) = match *input.get(1)? {
        126 => (
            4,
            u16::from_be_bytes(input.get(2..4)?.try_into().ok()?) as usize,
        ),
        127 => (
            10,
            u64::from_be_bytes(input.get(2..10)?.try_into().ok()?) as usize,
        ),
        length => (2, length as usize),
    };
    (input.len() >= start + length).then_some((start, start + length))
}

impl Sender {
    /// Sends one frame, behind those that wait.
    pub fn send(&mut self, opcode: u8, payload: &[u8]) -> io::Result<()> {
        self.add(opcode, payload);
        self.flush()
    }

    /// Sends the frames that wait, by one call.
    pub fn flush(&mut self) -> io::Result<()> {
        self.stream.write_all(&self.frames)?;
        self.frames.clear();
        Ok(())
    }

    /// Adds a frame to those that wait to be sent.
    pub fn add(&mut self, opcode: u8, payload: &[u8]) {
        self.mask = self
            .mask
            .wrapping_mul(1_664_525)
            .wrapping_add(1_013_904_223);
        let key = self.mask.to_be_bytes();
        let frames = &mut self.frames;
        frames.push(0x80 | opcode);
        match payload.len() {
            length @ 0..126 => frames.push(0x80 | length as u8),
            length => {
                frames.push(0x80 | 126);
                frames.extend_from_slice(&(length as u16).to_be_bytes());
            }
        }
        frames.extend_from_slice(&key);
        frames.extend(
            payload
                .iter()
                .enumerate()
                .map(|(place, byte)| byte ^ key[place % 4]),
        );
    }
}
