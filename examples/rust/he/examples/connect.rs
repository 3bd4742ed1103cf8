//! Connects to a host by a race of its addresses, and prints the race's transcript: a thread for each attempt, over std.
//!
//! usage: connect PORT HOST..        the addresses of all the hosts are one race's
//!        RECORD=FILE connect ..     writes the race's record there, a text that `he replay` takes
//!
//! Exit status: 0 if a connection was made, 3 if none was, 1 if something else failed.

use he::{Family, Race, Start, Step};
use std::error::Error;
use std::net::{IpAddr, SocketAddr, TcpStream, ToSocketAddrs};
use std::process::ExitCode;
use std::sync::mpsc::{channel, RecvTimeoutError, Sender};
use std::time::{Duration, Instant};
use std::{env, fs, io, thread};

const LIMIT: u64 = 10_000;

type Ended = (Start, io::Result<TcpStream>);

struct Client {
    race: Race,
    begun: Instant,
    addresses: Vec<SocketAddr>,
    sender: Sender<Ended>,
    streams: Vec<(usize, TcpStream)>,
}

impl Client {
    fn ticks(&self) -> u64 {
        self.begun.elapsed().as_millis() as u64
    }

    fn start(&self, start: Start) {
        let sender = self.sender.clone();
        let to = self.addresses.iter().find(|address| address.ip() == start.ip()).copied();
        thread::spawn(move || {
            let stream = to.ok_or_else(|| io::ErrorKind::AddrNotAvailable.into());
            let stream = stream.and_then(|to| TcpStream::connect_timeout(&to, Duration::from_millis(LIMIT)));
            let _ = sender.send((start, stream));
        });
    }

    fn end(&mut self, (start, stream): Ended) -> Result<(), he::Error> {
        self.race.turn(self.ticks());
        self.race.ended(&start, stream.is_ok())?;
        if let Err(error) = &stream {
            self.race.note(&format!("attempt {} {}", start.ip(), reason_of(error)))?;
        }
        self.streams.extend(stream.ok().map(|stream| (start.place(), stream)));
        Ok(())
    }
}

fn reason_of(error: &io::Error) -> &'static str {
    match error.kind() {
        io::ErrorKind::ConnectionRefused => "refused",
        io::ErrorKind::TimedOut => "timed-out",
        io::ErrorKind::ConnectionReset => "reset",
        io::ErrorKind::PermissionDenied => "forbidden",
        io::ErrorKind::AddrNotAvailable => "no-source",
        _ => "other",
    }
}

/// Runs a race of the addresses, and returns it with the stream that won.
fn run(race: Race, addresses: Vec<SocketAddr>) -> Result<(Race, Option<TcpStream>), he::Error> {
    let (sender, receiver) = channel();
    let ips: Vec<IpAddr> = addresses.iter().map(SocketAddr::ip).collect();
    let mut client = Client { race, begun: Instant::now(), addresses, sender, streams: Vec::new() };
    client.race.answered(Family::V6, &ips)?;
    client.race.answered(Family::V4, &ips)?;
    loop {
        match client.race.next_step()? {
            Step::Start(start) => client.start(start),
            Step::Wait(tick) => {
                let left = Duration::from_millis(tick.saturating_sub(client.ticks()));
                match receiver.recv_timeout(left) {
                    Ok(ended) => client.end(ended)?,
                    Err(RecvTimeoutError::Timeout | RecvTimeoutError::Disconnected) => {
                        client.race.turn(client.ticks())
                    }
                }
            }
            Step::Won(place) => {
                let won = client.streams.into_iter().find(|(own, _)| *own == place);
                return Ok((client.race, won.map(|(_, stream)| stream)));
            }
            Step::Exhausted | Step::Limit => return Ok((client.race, None)),
        }
    }
}

fn connect(words: &[String]) -> Result<bool, Box<dyn Error>> {
    let [_, port, hosts @ ..] = words else {
        return Err("usage: connect PORT HOST..".into());
    };
    let port: u16 = port.parse()?;
    let mut addresses = Vec::new();
    for host in hosts {
        addresses.extend((host.as_str(), port).to_socket_addrs().into_iter().flatten());
    }
    let mut race = Race::new(LIMIT)?;
    race.note(&format!("to {} {port}", hosts.first().ok_or("usage: connect PORT HOST..")?))?;
    let (race, stream) = run(race, addresses)?;
    print!("{}", race.transcript()?);
    if let Ok(file) = env::var("RECORD") {
        fs::write(file, race.record())?;
    }
    Ok(stream.is_some())
}

fn main() -> ExitCode {
    let words: Vec<String> = env::args().collect();
    match connect(&words) {
        Ok(is_connected) => ExitCode::from(if is_connected { 0 } else { 3 }),
        Err(error) => {
            eprintln!("connect: {error}");
            ExitCode::from(1)
        }
    }
}
