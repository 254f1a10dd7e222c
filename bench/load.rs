//! Clients that send puts over WebSocket. bench/serve.py compiles and runs this.
//!
//!     load ADDRESS CLIENTS PUTS IN_FLIGHT ROOM..
//!
//! Each client joins a room, the rooms in turn, and creates an object for each 1,000 of its puts. Then it prints
//! `ready` and waits for a line of input. Each client sends its puts on its own objects by a key of its own, with
//! IN_FLIGHT requests in flight. Then it prints `done` with the nanoseconds of all puts, and waits for another line.
//! The clients close, and it prints the median and 99th percentile of the time to a reply, in nanoseconds.

mod socket;

use socket::{Socket, fail};
use std::collections::VecDeque;
use std::io::{self, BufRead};
use std::sync::{Arc, Barrier};
use std::time::Instant;
use std::{env, thread};

const PUTS_AN_OBJECT: usize = 1000;

/// The command line.
struct Load {
    address: String,
    clients: usize,
    puts: usize,
    in_flight: usize,
    rooms: Vec<String>,
}

fn load_of(words: &[String]) -> Option<Load> {
    let [_, address, clients, puts, in_flight, rooms @ ..] = words else {
        return None;
    };
    let load = Load {
        address: address.clone(),
        clients: clients.parse().ok()?,
        puts: puts.parse().ok()?,
        in_flight: in_flight.parse().ok()?,
        rooms: rooms.to_vec(),
    };
    let is_some = load.clients > 0 && load.puts > 0 && load.in_flight > 0;
    (is_some && !load.rooms.is_empty()).then_some(load)
}

/// A client in its room, with its objects created.
struct Client {
    socket: Socket,
    site: usize,
    objects: usize,
}

impl Client {
    fn enter(load: &Load, number: usize) -> io::Result<Client> {
        let mut socket = Socket::open(&load.address, number)?;
        let room = &load.rooms[number % load.rooms.len()];
        let joined = socket.ask(&format!("[\"join\",\"{room}\"]"))?;
        let site = joined
            .trim_end_matches(']')
            .rsplit(',')
            .next()
            .and_then(|text| text.parse().ok());
        let Some(site) = site.filter(|_| joined.starts_with("[\"joined\"")) else {
            fail(&joined);
        };
        let objects = load.puts.div_ceil(PUTS_AN_OBJECT);
        for seq in 1..=objects {
            let seen = if seq > 1 {
                format!("[[{site},{}]]", seq - 1)
            } else {
                "[]".into()
            };
            let made = socket.ask(&format!("[\"new\",{seq},{seen},\"rect\",[]]"))?;
            if !made.starts_with("[\"made\"") {
                fail(&made);
            }
        }
        Ok(Client {
            socket,
            site,
            objects,
        })
    }

    /// Adds a put to the frames that wait to be sent.
    fn add_put(&mut self, turn: usize) {
        let (site, seq) = (self.site, self.objects + turn + 1);
        let object = turn / PUTS_AN_OBJECT + 1;
        let request = format!(
            "[\"put\",{seq},[[{site},{}]],[{site},{object}],[],[[\"key-{site}\",{turn}]]]",
            seq - 1
        );
        self.socket.add(1, request.as_bytes());
    }

    /// Sends all puts. Returns the time to each reply.
    fn put_all(&mut self, puts: usize, in_flight: usize) -> io::Result<Vec<u64>> {
        let mut times = Vec::with_capacity(puts);
        let mut waiting = VecDeque::with_capacity(in_flight);
        let mut sent = 0;
        while times.len() < puts {
            if !self.socket.has_frame() {
                while sent < puts && waiting.len() < in_flight {
                    waiting.push_back(Instant::now());
                    self.add_put(sent);
                    sent += 1;
                }
                self.socket.flush()?;
            }
            let reply = self.socket.receive()?;
            let Some(start) = waiting
                .pop_front()
                .filter(|_| reply.starts_with("[\"taken\""))
            else {
                fail(&reply);
            };
            times.push(start.elapsed().as_nanos() as u64);
        }
        Ok(times)
    }
}

/// Runs one client from its join to its close. All clients and the main thread meet before the puts, after them and
/// before the close.
fn run_client(load: &Load, number: usize, meeting: &Barrier) -> io::Result<Vec<u64>> {
    let mut client = Client::enter(load, number)?;
    meeting.wait();
    meeting.wait();
    let times = client.put_all(load.puts, load.in_flight)?;
    meeting.wait();
    meeting.wait();
    client.socket.send(8, &1000_u16.to_be_bytes())?;
    client.socket.receive()?;
    Ok(times)
}

fn await_line() {
    if io::stdin().lock().read_line(&mut String::new()).is_err() {
        fail("no input");
    }
}

fn main() {
    let words: Vec<String> = env::args().collect();
    let Some(load) = load_of(&words) else {
        fail("usage: load ADDRESS CLIENTS PUTS IN_FLIGHT ROOM..");
    };
    let load = Arc::new(load);
    let meeting = Arc::new(Barrier::new(load.clients + 1));
    let threads: Vec<_> = (0..load.clients)
        .map(|number| {
            let (load, meeting) = (load.clone(), meeting.clone());
            thread::spawn(move || {
                run_client(&load, number, &meeting).unwrap_or_else(|error| fail(&error.to_string()))
            })
        })
        .collect();
    meeting.wait();
    println!("ready");
    await_line();
    let start = Instant::now();
    meeting.wait();
    meeting.wait();
    let all = start.elapsed().as_nanos();
    println!("done {all}");
    await_line();
    meeting.wait();
    let mut times: Vec<u64> = threads
        .into_iter()
        .flat_map(|it| it.join().unwrap_or_default())
        .collect();
    times.sort_unstable();
    println!(
        "{} {}",
        times[times.len() / 2],
        times[times.len() * 99 / 100]
    );
}
