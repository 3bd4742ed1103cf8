//! A race that is being run, and its record.

use crate::calls::{judge, record_line, replay, written, Error};
use he_sys::*;
use std::net::IpAddr;

/// An address family, whose answer comes on its own.
#[derive(Clone, Copy, Debug, PartialEq, Eq)]
pub enum Family {
    V4 = 4,
    V6 = 6,
}

/// An attempt that starts.
#[derive(Clone, Copy, Debug, PartialEq, Eq)]
pub struct Start(he_step);

impl Start {
    /// The attempt's place, counted from 0.
    pub fn place(&self) -> usize {
        self.0.place as usize
    }

    /// The address to connect to.
    pub fn ip(&self) -> IpAddr {
        match <[u8; 4]>::try_from(&self.0.address[..4]) {
            Ok(bytes) if self.0.family == 4 => IpAddr::from(bytes),
            _ => IpAddr::from(self.0.address),
        }
    }
}

/// What is due.
#[derive(Clone, Copy, Debug, PartialEq, Eq)]
pub enum Step {
    /// Connect now.
    Start(Start),
    /// Nothing is due before this tick, unless something happens.
    Wait(u64),
    /// The attempt at this place won.
    Won(usize),
    /// Every attempt failed.
    Exhausted,
    /// The race ended at its limit.
    Limit,
}

/// A race: the parts of its record, and the tick of its turn. Ticks are milliseconds since the race began.
#[derive(Clone, Debug)]
pub struct Race {
    records: String,
    head: String,
    host: String,
    answers: [String; 2], // IPv6 first
    connects: String,
    pauses: String,
    started: u64,
    now: u64,
    after: u64, // the tick after the last start: the first one for an event
}

impl Race {
    /// A race that is given up after `limit` milliseconds, 1 to 3,600,000.
    pub fn new(limit: u64) -> Result<Race, Error> {
        let mut head = "race 2\n".to_owned();
        for (name, value) in [("limit", limit), ("floor", 10)] {
            // SAFETY: the name and the buffer are as long as their sizes say.
            head += &written(|buffer, size, result| unsafe {
                he_setting_line(name.as_ptr(), name.len(), value, buffer, size, result)
            })?;
        }
        Ok(Race {
            records: String::new(),
            head,
            host: String::new(),
            answers: Default::default(),
            connects: String::new(),
            pauses: String::new(),
            started: 0,
            now: 0,
            after: 0,
        })
    }

    /// Begins a turn at this tick, which may be the last turn's.
    pub fn turn(&mut self, now: u64) {
        self.now = self.now.max(now);
    }

    fn event_tick(&self) -> u64 {
        self.now.max(self.after)
    }

    /// The answer of a family has come, with these addresses; those of the other family are left out.
    pub fn answered(&mut self, family: Family, ips: &[IpAddr]) -> Result<(), Error> {
        let mut bytes = Vec::new();
        for (place, ip) in ips.iter().enumerate().filter(|(place, ip)| !ips[..*place].contains(ip)) {
            let _ = place;
            match (family, ip) {
                (Family::V4, IpAddr::V4(ip)) => bytes.extend(ip.octets()),
                (Family::V6, IpAddr::V6(ip)) => bytes.extend(ip.octets()),
                _ => {}
            }
        }
        let tick = self.event_tick();
        // SAFETY: the addresses and the buffer are as long as their sizes say.
        self.answers[usize::from(family == Family::V4)] = written(|buffer, size, result| unsafe {
            he_answer_line(family as u32, bytes.as_ptr(), bytes.len(), tick, buffer, size, result)
        })?;
        let record = self.so_far();
        // SAFETY: the record and the buffer are as long as their sizes say.
        self.host = written(|buffer, size, result| unsafe {
            he_host_lines(family as u32, record.as_ptr(), record.len(), buffer, size, result)
        })?;
        Ok(())
    }

    /// The attempt connected, or failed.
    pub fn ended(&mut self, start: &Start, is_connected: bool) -> Result<(), Error> {
        let tick = self.event_tick();
        // SAFETY: the step is one, and the buffer is as long as its size says.
        self.connects += &written(|buffer, size, result| unsafe {
            he_connect_line(&start.0, u32::from(is_connected), tick, buffer, size, result)
        })?;
        Ok(())
    }

    /// Adds a record line, as `to example.org 443`.
    pub fn note(&mut self, words: &str) -> Result<(), Error> {
        self.records += &record_line(words)?;
        Ok(())
    }

    /// What is due in this turn. A start counts as done: connect, and call again.
    pub fn next_step(&mut self) -> Result<Step, Error> {
        let (record, mut step, mut result) = (self.so_far(), he_step::default(), he_result::default());
        // SAFETY: the record is as long as its size says, and nothing overlaps.
        let answer =
            unsafe { he_next(record.as_ptr(), record.len(), self.started, self.now, &mut step, &mut result) };
        judge(answer, result)?;
        // SAFETY: the step is one, and the buffer is as long as its size says.
        self.pauses += &written(|buffer, size, result| unsafe { he_pause_line(&step, buffer, size, result) })?;
        Ok(match step.action {
            HE_ACTION_START => {
                self.started += 1;
                self.after = step.tick + 1;
                Step::Start(Start(step))
            }
            HE_ACTION_WAIT => Step::Wait(step.tick),
            HE_ACTION_WON => Step::Won(step.place as usize),
            HE_ACTION_EXHAUSTED => Step::Exhausted,
            _ => Step::Limit,
        })
    }

    fn so_far(&self) -> String {
        let [six, four] = &self.answers;
        [&self.records, &self.head, &self.host, six, four, &self.connects, &self.pauses].map(String::as_str).concat()
    }

    /// The race's record: a text that `he replay` takes.
    pub fn record(&self) -> String {
        self.so_far() + "end\n"
    }

    /// The race's transcript.
    pub fn transcript(&self) -> Result<String, Error> {
        replay(self.record().as_bytes())
    }
}
