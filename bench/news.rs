//! Clients that hold a wait and put values over WebSocket. bench/news.py compiles and runs this.
//!
//!     news ADDRESS CLIENTS PUTS PERIOD_MILLISECONDS ROOM
//!
//! Each client joins the room and creates an object. Then it prints `ready` and waits for a line of input. Each client
//! follows the record by waits, one at a time, and sends PUTS puts on its own object, one each PERIOD, over the same
//! connection. The value of a put is the time at which it was sent. At the end it prints the number of entries that
//! reached other clients, and the median and 99th percentile of the time that they took, in nanoseconds. Without puts
//! each client holds a wait for PERIOD.

mod socket;

use socket::{Sender, Socket, fail};
use std::io::{self, BufRead};
use std::sync::{Arc, Barrier, Mutex};
use std::time::{Duration, Instant};
use std::{env, thread};

/// The command line, and when the clocks of all clients began.
struct News {
    address: String,
    clients: usize,
    puts: usize,
    period: Duration,
    room: String,
    start: Instant,
    meeting: Barrier,
}

fn news_of(words: &[String]) -> Option<News> {
    let [_, address, clients, puts, period, room] = words else {
        return None;
    };
    let clients = clients.parse().ok().filter(|count| *count > 0)?;
    Some(News {
        address: address.clone(),
        clients,
        puts: puts.parse().ok()?,
        period: Duration::from_millis(period.parse().ok()?),
        room: room.clone(),
        start: Instant::now(),
        meeting: Barrier::new(clients + 1),
    })
}

/// The number at the start of a text.
fn number_at(text: &str) -> Option<u64> {
    let end = text.find(|c: char| !c.is_ascii_digit())?;
    text[..end].parse().ok()
}

/// What a client sends, from the thread that follows the record and from the one that puts.
#[derive(Clone)]
struct Writer<'a> {
    news: &'a News,
    sender: Arc<Mutex<Sender>>,
    site: u64,
}

impl Writer<'_> {
    fn send(&self, text: &str) -> io::Result<()> {
        match self.sender.lock() {
            Ok(mut sender) => sender.send(1, text.as_bytes()),
            Err(_) => fail("a sender was poisoned"),
        }
    }

    /// Sends the puts, one each period, from a time of the client's own.
    fn put_all(&self, number: usize) -> io::Result<()> {
        let news = self.news;
        thread::sleep(news.period * number as u32 / news.clients as u32);
        let begun = Instant::now();
        for turn in 0..news.puts {
            let due = begun + news.period * turn as u32;
            thread::sleep(due.saturating_duration_since(Instant::now()));
            let (site, seq) = (self.site, turn + 2);
            let nanos = news.start.elapsed().as_nanos();
            self.send(&format!(
                "[\"put\",{seq},[[{site},{}]],[{site},1],[],[[\"sent\",{nanos}]]]",
                seq - 1
            ))?;
        }
        Ok(())
    }
}

/// A client that is in the room with its object created.
struct Client<'a> {
    socket: Socket,
    writer: Writer<'a>,
    times: Vec<u64>,
}

impl<'a> Client<'a> {
    fn enter(news: &'a News, number: usize) -> io::Result<Client<'a>> {
        let mut socket = Socket::open(&news.address, number)?;
        let joined = socket.ask(&format!("[\"join\",\"{}\"]", news.room))?;
        let site = joined.trim_end_matches(']').rsplit(',').next();
        let Some(site) = site.and_then(|text| text.parse().ok()) else {
            fail(&joined);
        };
        let made = socket.ask("[\"new\",1,[],\"rect\",[]]")?;
        if !made.starts_with("[\"made\"") {
            fail(&made);
        }
        let sender = Arc::new(Mutex::new(socket.sender()?));
        Ok(Client {
            socket,
            writer: Writer { news, sender, site },
            times: Vec::new(),
        })
    }

    /// Notes the times of a page's entries that other clients put, and returns the number of its entries.
    fn take_page(&mut self, page: &str) -> usize {
        let now = self.writer.news.start.elapsed().as_nanos() as u64;
        let own = format!("[\"put\",[{},", self.writer.site);
        let mut count = 0;
        for place in page.match_indices("[\"put\",[").map(|found| found.0) {
            count += 1;
            let entry = &page[place..];
            let value = entry.find("\"sent\",").and_then(|at| number_at(&entry[at + 7..]));
            if let Some(sent) = value.filter(|_| !entry.starts_with(&own)) {
                self.times.push(now.saturating_sub(sent));
            }
        }
        count + page.matches("[\"join\",").count() + page.matches("[\"new\",").count()
    }

    /// Follows the record until it has so many entries.
    fn follow(&mut self, entries: usize) -> io::Result<()> {
        let mut have = 0;
        self.writer.send(&format!("[\"wait\",{have}]"))?;
        while have < entries {
            let reply = self.socket.receive()?;
            if reply.starts_with("[\"entries\"") {
                have += self.take_page(&reply);
                if have < entries {
                    self.writer.send(&format!("[\"wait\",{have}]"))?;
                }
            } else if !reply.starts_with("[\"taken\"") {
                fail(&reply);
            }
        }
        Ok(())
    }
}

/// Takes part from the join to the close. Returns how long the entries of others took.
fn run_client(news: &News, number: usize) -> io::Result<Vec<u64>> {
    let mut client = Client::enter(news, number)?;
    news.meeting.wait();
    news.meeting.wait();
    let entries = news.clients * (2 + news.puts);
    let writer = client.writer.clone();
    thread::scope(|scope| -> io::Result<()> {
        let putting = scope.spawn(move || writer.put_all(number));
        client.follow(entries)?;
        putting.join().unwrap_or_else(|_| fail("a client ended"))
    })?;
    if news.puts == 0 {
        client.writer.send(&format!("[\"wait\",{entries}]"))?;
        thread::sleep(news.period);
    }
    Ok(client.times)
}

fn main() {
    let words: Vec<String> = env::args().collect();
    let Some(news) = news_of(&words) else {
        fail("usage: news ADDRESS CLIENTS PUTS PERIOD_MILLISECONDS ROOM");
    };
    let mut times: Vec<u64> = thread::scope(|scope| {
        let news = &news;
        let threads: Vec<_> = (0..news.clients)
            .map(|number| {
                scope.spawn(move || {
                    run_client(news, number).unwrap_or_else(|error| fail(&error.to_string()))
                })
            })
            .collect();
        news.meeting.wait();
        println!("ready");
        if io::stdin().lock().read_line(&mut String::new()).is_err() {
            fail("no input");
        }
        news.meeting.wait();
        threads
            .into_iter()
            .flat_map(|it| it.join().unwrap_or_default())
            .collect()
    });
    times.sort_unstable();
    let at = |share: usize| times.get(times.len() * share / 100).copied().unwrap_or(0);
    println!("{} {} {}", times.len(), at(50), at(99));
}
