// Loads a memcached server for bench/compare, and checks every reply byte by byte.
// Usage: load <host:port> <keys> <bytes>
//
// It sets every key, prints `filled`, and then does what the lines of its input say, each `<work> <connections>
// <milliseconds> <depth> <rate>`, of which it prints the requests per second, how many were answered, and in how many
// microseconds 99 of 100 were. At the end of the input it asks for every key. The status is 1 where a reply is wrong or a
// connection fails, and 2 where its words or a line can't be followed.
//
// Each connection has a thread, which sends as many requests as the depth says after the replies to the last ones. At rate 0
// it does so at once, and no time of an answer is told (0). Else all connections together send so many requests in a second,
// each at its moment, and an answer's time is from that moment, also where its connection was late. What counts, by the work:
//   get     one key, which is there
//   get10   ten keys in one request, which are all there; that counts as one request
//   set     one key, which is there: the value is replaced
//   delete  one key, which is there (DELETED). When a connection has deleted all its keys it asks for each, which has to
//           be gone, and sets it again, many in one write. Neither the requests nor the time of that count; but what other
//           connections delete meanwhile has it beside it. With `n` keys for a connection it comes once in `n` deletes, and
//           for the last time after the end
// The rate is what all connections had answered, by the mean of their seconds: from the moment when the first began to the
// last reply of each, less what putting back took before that.
//
// How it is known what a reply has to be: in set and delete each key belongs to one connection (at least as many keys as
// connections, therefore). In get and get10 nobody writes, so all connections share all keys, each beginning at another
// one. Fewer than ten keys are asked for again within one get10. Keys are used in an order that jumps about among them and
// comes to each before it comes to any again; a later work goes on where an earlier one ended.
use std::env;
use std::error::Error;
use std::io::{self, Read, Write};
use std::net::TcpStream;
use std::ops::Range;
use std::process::ExitCode;
use std::sync::atomic::{AtomicBool, AtomicU64, Ordering};
use std::sync::Barrier;
use std::thread;
use std::time::{Duration, Instant};

// How many requests, of how many bytes of values, are sent at once where nothing is counted, and by how many connections.
const TOGETHER: usize = 64;
const BYTES_TOGETHER: usize = 1 << 20;
const FILLERS: usize = 4;
// How many bytes of a text a fault shows.
const SHOWN: usize = 300;
// A prime above every number of keys, so that its multiples come to each place once.
const JUMP: usize = 2_654_435_761;
// At how many places of the filling a block may begin.
const BEGINNINGS: usize = 251;

type Outcome<T> = Result<T, Box<dyn Error + Send + Sync>>;

#[derive(Clone, Copy, PartialEq)]
enum Work {
    Get,
    Get10,
    Set,
    Delete,
}

impl Work {
    fn named(name: &str) -> Option<Work> {
        match name {
            "get" => Some(Work::Get),
            "get10" => Some(Work::Get10),
            "set" => Some(Work::Set),
            "delete" => Some(Work::Delete),
            _ => None,
        }
    }

    // How many keys a request has.
    fn keys(self) -> usize {
        if self == Work::Get10 { 10 } else { 1 }
    }

    fn reads(self) -> bool {
        self == Work::Get || self == Work::Get10
    }
}

// What a line of the input wants.
struct Order {
    work: Work,
    connections: usize,
    time: Duration,
    // How many requests a connection has under way.
    depth: u64,
    // How long after one another a connection's requests are due; 0 where each is as soon as it can be.
    gap: Duration,
}

impl Order {
    fn of(line: &str, keys: usize) -> Option<Order> {
        let words: Vec<&str> = line.split(' ').collect();
        let [work, connections, time, depth, rate] = words.as_slice() else { return None };
        let work = Work::named(work)?;
        let connections = connections.parse().ok()?;
        let time = Duration::from_millis(time.parse().ok()?);
        let depth = depth.parse().ok()?;
        let rate: f64 = rate.parse().ok()?;
        let paced = rate > 0.0;
        let gap = if paced { Duration::from_secs_f64(depth as f64 * connections as f64 / rate) } else { Duration::ZERO };
        let sound = connections > 0 && depth > 0 && (work.reads() || connections <= keys) && !(paced && work == Work::Delete);
        sound.then_some(Order { work, connections, time, depth, gap })
    }
}

struct Client<'a> {
    stream: TcpStream,
    // What blocks are filled with, and how long they are.
    filling: &'a [u8],
    bytes: usize,
    // The keys that this connection uses: the number of the first, and of each the turn at which it was set, or 0 where it
    // is gone. Values differ by that.
    first: usize,
    stamps: &'a [AtomicU64],
    // The keys asked for so far: which comes next.
    turn: u64,
    // What counts: the requests answered, when the first began and the last ended, and what does not count between.
    answered: u64,
    began: Instant,
    ended: Instant,
    paused: Duration,
    // Which part of the time between two requests this connection is behind the first one, so that not all send at once.
    shift: f64,
    // Of answers that were due at a moment, how long they took, in microseconds.
    times: Vec<u32>,
    sent: Vec<u8>,
    wanted: Vec<u8>,
    read: Vec<u8>,
}

impl Client<'_> {
    fn place(&self, turn: u64) -> usize {
        let count = self.stamps.len();
        (turn as usize % count) * JUMP % count
    }

    fn name(&self, place: usize) -> String {
        format!("key-{:012}", self.first + place)
    }

    // A block that differs from key to key and from set to set, and in which bytes that moved are seen.
    fn push_block(text: &mut Vec<u8>, filling: &[u8], key: &str, stamp: u64, bytes: usize) {
        let begin = text.len();
        let _ = write!(text, "{stamp:010}{key}");
        text.truncate(begin + bytes);
        let more = begin + bytes - text.len();
        text.extend_from_slice(&filling[stamp as usize % BEGINNINGS..][..more]);
        text.extend_from_slice(b"\r\n");
    }

    fn add_set(&mut self, place: usize, stamp: u64) {
        let key = self.name(place);
        self.stamps[place].store(stamp, Ordering::Relaxed);
        let _ = write!(self.sent, "set {key} 0 0 {}\r\n", self.bytes);
        Self::push_block(&mut self.sent, self.filling, &key, stamp, self.bytes);
        self.wanted.extend_from_slice(b"STORED\r\n");
    }

    fn add_delete(&mut self, place: usize) {
        let _ = write!(self.sent, "delete {}\r\n", self.name(place));
        let there = self.stamps[place].swap(0, Ordering::Relaxed) > 0;
        self.wanted.extend_from_slice(if there { b"DELETED\r\n" } else { b"NOT_FOUND\r\n" });
    }

    fn add_get(&mut self, places: impl Iterator<Item = usize>) {
        self.sent.extend_from_slice(b"get");
        for place in places {
            let key = self.name(place);
            let stamp = self.stamps[place].load(Ordering::Relaxed);
            let _ = write!(self.sent, " {key}");
            if stamp > 0 {
                let _ = write!(self.wanted, "VALUE {key} 0 {}\r\n", self.bytes);
                Self::push_block(&mut self.wanted, self.filling, &key, stamp, self.bytes);
            }
        }
        self.sent.extend_from_slice(b"\r\n");
        self.wanted.extend_from_slice(b"END\r\n");
    }

    // Adds the request that is next. Its stamp is later than any before, and never 0.
    fn add_next(&mut self, work: Work) {
        let place = self.place(self.turn);
        match work {
            Work::Get => self.add_get([place].into_iter()),
            Work::Get10 => {
                let places: [usize; 10] = std::array::from_fn(|count| self.place(self.turn + count as u64));
                self.add_get(places.into_iter());
            }
            Work::Set => self.add_set(place, self.turn + 1),
            Work::Delete => self.add_delete(place),
        }
        self.turn += work.keys() as u64;
    }

    // Tells what was sent, and what came and was wanted from where they differ.
    fn fault<T>(&self, count: usize) -> Outcome<T> {
        let got = &self.read[..count];
        let same = got.iter().zip(&self.wanted).take_while(|(one, other)| one == other).count();
        let text = |bytes: &[u8]| String::from_utf8_lossy(&bytes[..bytes.len().min(SHOWN)]).escape_debug().to_string();
        let (sent, got, wanted) = (text(&self.sent), text(&got[same..]), text(&self.wanted[same..]));
        Err(format!("{sent} got {got} and not {wanted}, behind {same} bytes that are right").into())
    }

    // Sends what was added and reads until as much is there as is wanted, or something else.
    fn exchange(&mut self) -> Outcome<()> {
        self.stream.write_all(&self.sent)?;
        // Room for more than is wanted, so that it is seen.
        let room = self.read.len().max(self.wanted.len() + 1);
        self.read.resize(room, 0);
        let mut count = 0;
        while count < self.wanted.len() {
            let more = self.stream.read(&mut self.read[count..])?;
            let (place, wanted) = (count, &self.wanted[count..]);
            count += more;
            if more == 0 || !wanted.starts_with(&self.read[place..count]) {
                return self.fault(count);
            }
        }
        self.sent.clear();
        self.wanted.clear();
        Ok(())
    }

    // Makes requests for places, many at once.
    fn together(&mut self, places: impl Iterator<Item = usize>, add: impl Fn(&mut Self, usize)) -> Outcome<()> {
        let together = (BYTES_TOGETHER / self.bytes.max(1)).clamp(1, TOGETHER);
        for (count, place) in places.enumerate() {
            add(self, place);
            if count % together == together - 1 {
                self.exchange()?;
            }
        }
        self.exchange()
    }

    fn fill(&mut self) -> Outcome<()> {
        self.together(0..self.stamps.len(), |client, place| client.add_set(place, 1))
    }

    fn ask_all(&mut self) -> Outcome<()> {
        self.together(0..self.stamps.len(), |client, place| client.add_get([place].into_iter()))
    }

    // Asks for the keys that were deleted since a turn, and sets them again.
    fn put_back(&mut self, since: u64) -> Outcome<()> {
        let places: Vec<usize> = (since..self.turn).map(|turn| self.place(turn)).collect();
        let stamp = self.turn;
        self.together(places.into_iter(), |client, place| {
            client.add_get([place].into_iter());
            client.add_set(place, stamp);
        })
    }

    // Waits for the moment when the next requests are due, which is told: now, where they are as soon as they can be.
    fn wait(&self, order: &Order) -> Instant {
        if order.gap.is_zero() {
            return Instant::now();
        }
        let due = self.began + order.gap.mul_f64(self.times.len() as f64 + self.shift);
        thread::sleep(due.saturating_duration_since(Instant::now()));
        due
    }

    // Uses each key once, some requests after the replies to the last ones; fewer, but at least one, where it is told to stop.
    fn pass(&mut self, order: &Order, stop: &AtomicBool) -> Outcome<()> {
        let end = self.turn + self.stamps.len() as u64;
        loop {
            let due = self.wait(order);
            let mut count = 0;
            while count < order.depth && self.turn < end {
                self.add_next(order.work);
                count += 1;
            }
            self.exchange()?;
            self.answered += count;
            if !order.gap.is_zero() {
                self.times.push(due.elapsed().as_micros() as u32);
            }
            if self.turn >= end || stop.load(Ordering::Relaxed) {
                return Ok(());
            }
        }
    }

    fn run(&mut self, order: &Order, stop: &AtomicBool) -> Outcome<()> {
        self.began = Instant::now();
        loop {
            let since = self.turn;
            self.pass(order, stop)?;
            self.ended = Instant::now();
            if order.work == Work::Delete {
                self.put_back(since)?;
            }
            if stop.load(Ordering::Relaxed) {
                return Ok(());
            }
            self.paused += self.ended.elapsed();
        }
    }

    // Ends the connection, on which nothing more may come.
    fn quit(mut self) -> Outcome<()> {
        self.sent.extend_from_slice(b"quit\r\n");
        self.stream.write_all(&self.sent)?;
        let count = self.stream.read(&mut self.read)?;
        if count > 0 { self.fault(count) } else { Ok(()) }
    }
}

struct Load {
    address: String,
    filling: Vec<u8>,
    bytes: usize,
    // Of each key, as a client has it.
    stamps: Vec<AtomicU64>,
    turn: u64,
}

impl Load {
    fn connect(&self, own: Range<usize>, turn: u64, shift: f64) -> Outcome<Client<'_>> {
        let stream = TcpStream::connect(&self.address)?;
        stream.set_nodelay(true)?;
        stream.set_read_timeout(Some(Duration::from_secs(10)))?;
        let (first, stamps) = (own.start, &self.stamps[own]);
        let (times, sent, wanted, read) = (vec![], vec![], vec![], vec![0; 65536]);
        let (answered, began, ended, paused) = (0, Instant::now(), Instant::now(), Duration::ZERO);
        let (filling, bytes) = (&self.filling[..], self.bytes);
        Ok(Client { stream, filling, bytes, first, stamps, turn, answered, began, ended, paused, shift, times, sent, wanted, read })
    }

    // Connections that have each the keys of its own.
    fn writers(&self, connections: usize) -> Outcome<Vec<Client<'_>>> {
        let bound = |number| self.stamps.len() * number / connections;
        let shift = |number| number as f64 / connections as f64;
        (0..connections).map(|number| self.connect(bound(number)..bound(number + 1), self.turn, shift(number))).collect()
    }

    // Connections that have all keys, and begin as far from each other as may be.
    fn readers(&self, connections: usize) -> Outcome<Vec<Client<'_>>> {
        let begin = |number| self.turn + (self.stamps.len() * number / connections) as u64;
        let shift = |number| number as f64 / connections as f64;
        (0..connections).map(|number| self.connect(0..self.stamps.len(), begin(number), shift(number))).collect()
    }

    // Lets a few connections do what isn't counted.
    fn prepare(&self, task: fn(&mut Client) -> Outcome<()>) -> Outcome<()> {
        let mut clients = self.writers(FILLERS.min(self.stamps.len()))?;
        thread::scope(|scope| {
            let threads: Vec<_> = clients.iter_mut().map(|client| scope.spawn(|| task(client))).collect();
            join(threads)
        })?;
        clients.into_iter().try_for_each(Client::quit)
    }

    // Requests per second, how many were answered, and in how many microseconds 99 of 100 were.
    fn measure(&mut self, order: &Order) -> Outcome<(f64, u64, u32)> {
        let connections = order.connections;
        let mut clients = if order.work.reads() { self.readers(connections)? } else { self.writers(connections)? };
        let (ready, stop) = (Barrier::new(connections + 1), AtomicBool::new(false));
        let run = |client: &mut Client| {
            ready.wait();
            client.run(order, &stop)
        };
        thread::scope(|scope| {
            let threads: Vec<_> = clients.iter_mut().map(|client| scope.spawn(|| run(client))).collect();
            ready.wait();
            thread::sleep(order.time);
            stop.store(true, Ordering::Relaxed);
            join(threads)
        })?;
        let answered: u64 = clients.iter().map(|client| client.answered).sum();
        let rate = answered as f64 / mean_seconds(&clients);
        let slow = slow_of(clients.iter().flat_map(|client| client.times.iter().copied()).collect());
        clients.into_iter().try_for_each(Client::quit)?;
        self.turn += answered * order.work.keys() as u64;
        Ok((rate, answered, slow))
    }

    fn serve(&mut self) -> Outcome<ExitCode> {
        self.prepare(|client| client.fill())?;
        println!("filled");
        for line in io::stdin().lines() {
            let line = line?;
            let Some(order) = Order::of(&line, self.stamps.len()) else {
                eprintln!("load: not followed: {line}");
                return Ok(ExitCode::from(2));
            };
            let (rate, answered, slow) = self.measure(&order)?;
            println!("{rate:.0} {answered} {slow}");
        }
        self.prepare(|client| client.ask_all())?;
        Ok(ExitCode::SUCCESS)
    }
}

// How long a connection worked. One that began later than the first had to wait for its turn, which counts.
fn mean_seconds(clients: &[Client]) -> f64 {
    let begin = clients.iter().map(|client| client.began).min();
    let seconds = |client: &Client| (client.ended - begin.unwrap_or(client.began) - client.paused).as_secs_f64();
    clients.iter().map(seconds).sum::<f64>() / clients.len() as f64
}

// The time that 99 of 100 of these don't exceed; 0 where there are none.
fn slow_of(mut times: Vec<u32>) -> u32 {
    times.sort_unstable();
    times.get(times.len() * 99 / 100).copied().unwrap_or(0)
}

// Bytes of all kinds in no order, the same each time: of each number of a sequence the byte that changes most.
fn filling(count: usize) -> Vec<u8> {
    let next = |number: &u64| Some(number.wrapping_mul(6_364_136_223_846_793_005).wrapping_add(1));
    std::iter::successors(Some(1), next).map(|number| (number >> 56) as u8).take(count).collect()
}

fn join(threads: Vec<thread::ScopedJoinHandle<'_, Outcome<()>>>) -> Outcome<()> {
    let joined = |thread: thread::ScopedJoinHandle<'_, Outcome<()>>| thread.join().map_err(|_| "a thread broke off")?;
    threads.into_iter().try_for_each(joined)
}

fn read_words() -> Option<Load> {
    let words: Vec<String> = env::args().skip(1).collect();
    let [address, keys, bytes] = words.as_slice() else { return None };
    let keys: usize = keys.parse().ok()?;
    let stamps: Vec<AtomicU64> = (0..keys).map(|_| AtomicU64::new(0)).collect();
    let bytes: usize = bytes.parse().ok()?;
    let load = Load { address: address.clone(), filling: filling(bytes + BEGINNINGS), bytes, stamps, turn: 1 };
    (0 < keys && keys < JUMP).then_some(load)
}

fn main() -> ExitCode {
    let Some(mut load) = read_words() else {
        eprintln!("usage: load <host:port> <keys> <bytes>");
        return ExitCode::from(2);
    };
    load.serve().unwrap_or_else(|fault| {
        eprintln!("load: {fault}");
        ExitCode::FAILURE
    })
}
