//! A race without sockets: events of one millisecond are a turn each.

use he::{check, record_line, Error, Family, Race, Step};
use std::net::IpAddr;

fn ips(text: &str) -> Vec<IpAddr> {
    text.split_whitespace().map(|word| word.parse().unwrap()).collect()
}

#[test]
fn events_of_one_millisecond() {
    let mut race = Race::new(1000).unwrap();
    race.turn(5);
    race.answered(Family::V6, &ips("")).unwrap();
    assert_eq!(race.next_step(), Ok(Step::Wait(1000)));
    race.turn(5);
    race.answered(Family::V4, &ips("192.0.2.1 192.0.2.2 192.0.2.1")).unwrap();
    let Ok(Step::Start(first)) = race.next_step() else { panic!() };
    assert_eq!((first.place(), first.ip()), (0, ips("192.0.2.1")[0]));
    race.turn(5);
    race.ended(&first, false).unwrap();
    // The failure counts as one of tick 6, and the floor of 10 ticks is over at tick 15.
    assert_eq!(race.next_step(), Ok(Step::Wait(15)));
    race.turn(15);
    let Ok(Step::Start(second)) = race.next_step() else { panic!() };
    race.turn(15);
    race.ended(&second, true).unwrap();
    assert_eq!(race.next_step(), Ok(Step::Wait(16)));
    race.turn(16);
    assert_eq!(race.next_step(), Ok(Step::Won(1)));
    let wanted = "attempt 0 5 192.0.2.1 failed 6\nattempt 1 15 192.0.2.2 won 16\nwon 1 16\n";
    assert_eq!(race.transcript().as_deref(), Ok(wanted));
    assert!(race.record().contains("\naaaa 5 none\na 5 192.0.2.1 192.0.2.2\nconnect 192.0.2.1 fail 1\n"));
}

#[test]
fn faults_have_their_line_and_kind() {
    let fault = Error::Fault { line: 2, kind: "word".to_owned() };
    assert_eq!(check(b"race 1\nrace 1\nend\n"), Err(fault));
    assert_eq!(check(b"race 1\nend\n").as_deref(), Ok("1 race, 2 lines\n"));
    assert_eq!(record_line("to example.org 443").as_deref(), Ok("record to example.org 443\n"));
    assert!(record_line("to example.org").is_err());
}
