"""Tries what tools/from-capture says of captures that are written packet by packet: the record lines, which packets
are whose, and what it notes. The wanted lines are worked out by hand.

needs: tshark, and tcpdump for the filter
"""
import re
import struct

import written_capture as written
from support import OPTIONS, ROOT, must, needs, run, seconds_of_children, timed
from drawn_capture import ACK, FIN, RST, SYN
from written_capture import (CLIENT, CLIENT6, ETHERNET, FOUR, OTHER_SERVER, SERVER, SIX, Capture, address, looked_up)

HE = OPTIONS.program
NAME = "www.example.com"
AT, TO, FROM = "at 2025-11-24T16:00:00.000Z", f"to {NAME} 443", f"from {CLIENT}"
LATER = 20_000  # milliseconds: the capture's last packet
OTHER, OTHER6 = "192.0.2.3", "2001:db8::3"  # another client
MEGABYTES = 1_000_000


def from_capture(capture, *words):
    """The text that is written of a capture, which the program takes, and what is noted."""
    needs("tshark")
    file = capture.write(OPTIONS.folder / "written.pcap") if isinstance(capture, Capture) else capture
    ran = run(ROOT / "tools/from-capture", file, *words)
    must(ran.returncode == 0, ran.stderr)
    must(run(HE, "check", input=ran.stdout).returncode == 0, f"he check refuses\n{ran.stdout}")
    return ran.stdout, ran.stderr


def records(timelines):
    """Of each race its record lines, without their first word."""
    races = timelines.removesuffix("end\n").split("end\n")
    return [re.findall("(?m)^record (.*)$", race) for race in races]


def is_recorded(capture, *wanted, words=(), what=""):
    """Whether a capture's one race has these record lines after `at`, `to` and `from`."""
    found = records(from_capture(capture, *words)[0])
    must(found == [[AT, TO, FROM, *wanted]], f"{what}: {found}")


def connected(capture, start=1, port=2000):
    """Adds a connection to the IPv6 address, made after 10 ms, and later a packet of another."""
    capture.syn(start, SIX, port)
    capture.accept(start + 10, SIX, port)
    capture.syn(LATER, "192.0.2.99", 9)
    return capture


def check_whole():
    """A race in full: in the order of the lines, with all that is asked of it."""
    capture = Capture()
    capture.ask(0, NAME)
    capture.answer(30, NAME, 4, FOUR, "198.51.100.81")
    capture.answer(40, NAME, 6, SIX, "2001:db8:1::81")
    capture.syn(50, SIX, 2000)
    capture.refuse(55, SIX, 2000)
    capture.syn(60, FOUR, 2001)
    capture.accept(75, FOUR, 2001)
    timelines, _ = from_capture(capture)
    wanted = f"""record {AT}
record {TO}
record {FROM}
record attempt {SIX} refused
record untried 2001:db8:1::81
record untried 198.51.100.81
record connected 75
race 1
source 2001:db8::2/64 1
source 192.0.2.2/24 1
route ::/0 1
route 0.0.0.0/0 1
aaaa 40 {SIX} 2001:db8:1::81
a 30 {FOUR} 198.51.100.81
connect {SIX} fail 5
connect {FOUR} ok 15
end
"""
    must(timelines == wanted, timelines)


def check_moments():
    """Tick 0 is the first query's time stamp: milliseconds are cut, days and years are those of UTC."""
    capture = connected(looked_up())
    for begun, wanted in ((1_764_028_799_999, "2025-11-24T23:59:59.999Z"),
                          (951_782_400_007, "2000-02-29T00:00:00.007Z")):
        found = records(from_capture(capture.write(OPTIONS.folder / "moment.pcap", begun))[0])
        must(found[0][0] == f"at {wanted}", found)


def check_lookups():
    """Why the other family has no address."""
    for code, wanted in ((0, "no-address"), (3, "no-such-name"), (5, "refused"), (2, "failed"), (4, "failed")):
        capture = Capture()
        capture.ask(0, NAME)
        capture.answer(1, NAME, 6, SIX)
        capture.answer(2, NAME, 4, code=code)
        fate = {"refused": [f"server {SERVER} refused 2"], "failed": [f"server {SERVER} failed 2"]}.get(wanted, [])
        is_recorded(connected(capture, 3), f"lookup a {wanted}", *fate, "connected 13", what=f"code {code}")
    capture = Capture()
    capture.ask(0, NAME)
    capture.answer(1, NAME, 6, SIX)
    is_recorded(connected(capture, 5007), "lookup a no-answer", f"server {SERVER} silent 5007", "connected 5017")
    capture = Capture()
    capture.ask(0, NAME, 6)
    capture.answer(1, NAME, 6, SIX)
    is_recorded(connected(capture), "lookup a not-asked", "connected 11", what="not asked")
    capture = Capture()
    capture.answer(0, NAME, 6, SIX)
    is_recorded(connected(capture), "connected 11", what="the capture began after the queries")


def check_malformed():
    """An answer whose record says that it has four more bytes than there are; and one that the capture cuts there."""
    for is_cut in (False, True):
        capture = Capture()
        capture.ask(0, NAME)
        capture.answer(1, NAME, 6, SIX)
        capture.answer(2, NAME, 4, FOUR)
        packet = bytearray(capture.packets.pop()[2][:-4])
        if not is_cut:
            packet[2:4], packet[24:26] = struct.pack("!H", len(packet)), struct.pack("!H", len(packet) - 20)
            capture.add(2, bytes(packet))
            is_recorded(connected(capture, 3), "lookup a malformed", f"server {SERVER} failed 2", "connected 13")
            continue
        file = connected(capture, 3).write(OPTIONS.folder / "cut.pcap")
        whole = file.read_bytes()
        cut = struct.pack("<IIII", written.BEGUN // 1000, 2000, len(packet), len(packet) + 4) + packet
        at = len(whole) - sum(16 + len(each) for _, _, each in capture.packets[-3:])
        file.write_bytes(whole[:at] + cut + whole[at:])
        found, said = from_capture(file)
        wanted = [AT, TO, FROM, "lookup a no-answer", f"server {SERVER} silent 3", "connected 13"]
        must(records(found) == [wanted], found)
        must("1 packets are cut or damaged" in said, said)


def server_capture(fate, begun=0):
    """Two name servers, of which the first has a fate; the second is asked at 3005, and answers 1 ms later."""
    capture = Capture()
    capture.ask(begun, NAME)
    fate(capture)
    capture.ask(3005, NAME, server=OTHER_SERVER)
    capture.answer_both(3006, NAME, server=OTHER_SERVER)
    return connected(capture, 3010)


def check_servers():
    """Why the first name server was given up, and that the queries which ICMP errors quote are no new ones."""
    def errors(kind, code):
        def fate(capture):
            for version in (6, 4):
                capture.error(3004, capture.query(NAME, version), kind, code)
                capture.error(3400, capture.query(NAME, version), kind, code)
        return fate

    def replies(code):
        return lambda capture: [capture.answer(3004, NAME, version, code=code) for version in (6, 4)]

    for fate, word in ((lambda capture: None, "silent"), (errors(3, 1), "unreachable"), (errors(3, 0), "unreachable"),
                       (errors(3, 13), "unreachable"), (errors(11, 0), "unreachable"), (errors(3, 3), "refused"),
                       (replies(5), "refused"), (replies(2), "failed")):
        is_recorded(server_capture(fate), f"server {SERVER} {word} 3005", f"untried {FOUR}", "connected 3020",
                    what=word)
    is_recorded(server_capture(lambda capture: capture.answer_both(4000, NAME)), f"server {SERVER} silent 3005",
                f"untried {FOUR}", "connected 3020", what="an answer that comes too late")
    only = Capture()
    only.ask(0, NAME)
    for at in (1, 2):
        only.answer(at, NAME, 4, code=2)
    only.answer(3, NAME, 6, SIX)
    is_recorded(connected(only, 4), "lookup a failed", f"server {SERVER} failed 1", "connected 14", what="no other")


def check_neighbours():
    """A name server, and an address, that nobody has on the link: no query and no SYN is sent, only their neighbour is
    asked for, thrice, and the client's own ICMP error quotes them."""
    for server, client, kind in (("192.0.2.77", CLIENT, (3, 1)), ("2001:db8::77", CLIENT6, (1, 3))):
        for is_seen in (True, False):
            capture = Capture(ETHERNET)
            for at in (0, 1024, 2048) if is_seen else ():
                capture.seek(at, server, client)
            for version in (6, 4):
                capture.error(3064, capture.query(NAME, version, client, server), *kind, is_whole=True)
            capture.ask(3065, NAME)
            capture.answer_both(3066, NAME)
            connected(capture, 3067)
            begun, after = (AT, 0) if is_seen else (AT.replace("00.000Z", "03.064Z"), 3064)
            found = records(from_capture(capture)[0])
            must(found == [[begun, TO, f"from {client}", f"server {server} unreachable {3065 - after}",
                            f"untried {FOUR}", f"connected {3077 - after}"]], found)
    capture = Capture(ETHERNET)  # a client that doesn't wait for the error, but asks another one after 250 ms
    for at in (0, 1024, 2048):
        capture.seek(at, "192.0.2.77", CLIENT)
    capture.ask(250, NAME, 6)
    capture.answer(251, NAME, 6, SIX)
    connected(capture, 252)
    capture.ask(265, NAME, 4)
    capture.answer(266, NAME, 4, FOUR)
    for version in (6, 4):
        capture.error(3064, capture.query(NAME, version, CLIENT, "192.0.2.77"), 3, 1, is_whole=True)
    is_recorded(capture, "lookup a no-answer", "server 192.0.2.77 silent 252", "connected 262", what="not waited for")
    capture = looked_up()
    for at in (2, 1026, 2050):
        capture.seek(at, SIX, CLIENT6)
    raw = Capture()
    raw.syn(0, SIX, 2000)
    capture.error(3066, raw.last(), 1, 3)
    capture.syn(3067, FOUR, 2001)
    capture.accept(3077, FOUR, 2001)
    is_recorded(capture, f"attempt {SIX} unreachable", "connected 3077", what="an address on the link")
    must(f"connect {SIX} fail 3064\n" in from_capture(capture)[0], "its time")


def check_servers_at_once():
    """Two servers are asked at once, as W1 was found: one is dead on the link. The connection takes 4 seconds."""
    capture = Capture()
    for server in (SERVER, OTHER_SERVER):
        capture.ask(0, NAME, server=server)
    capture.answer_both(2, NAME, server=OTHER_SERVER)
    capture.syn(3, SIX, 2000)
    for version in (6, 4):
        capture.error(3070, capture.query(NAME, version), 3, 1)
    capture.accept(4003, SIX, 2000)
    capture.syn(LATER, "192.0.2.99", 9)
    is_recorded(capture, f"server {SERVER} unreachable 3070", f"untried {FOUR}", "connected 4003", what="one dead")
    capture = Capture()
    for server in (SERVER, OTHER_SERVER):
        capture.ask(0, NAME, server=server)
    capture.answer_both(2, NAME, server=OTHER_SERVER)
    capture.answer_both(9, NAME)
    is_recorded(connected(capture, 3), f"untried {FOUR}", "connected 13", what="both answer")


def check_most_servers():
    """Nine servers don't answer: a record holds eight."""
    capture, servers = Capture(), [f"192.0.2.{number}" for number in range(60, 69)]
    for place, server in enumerate(servers):
        capture.ask(place * 300, NAME, server=server)
    capture.ask(2700, NAME)
    capture.answer_both(2701, NAME)
    wanted = [f"server {server} silent 300" for server in servers[:8]]
    is_recorded(connected(capture, 2702), *wanted, f"untried {FOUR}", "connected 2712")


def check_attempts():
    """Why an attempt failed. After 5 ms it does; 250 ms after its start the other address is tried."""
    errors = [(SIX, kind, code, word) for kind, code, word in (
        (1, 0, "unreachable"), (1, 1, "forbidden"), (1, 2, "unreachable"), (1, 3, "unreachable"), (1, 4, "refused"),
        (1, 5, "forbidden"), (1, 6, "forbidden"), (3, 0, "unreachable"), (4, 1, "other"))]
    errors += [(FOUR, kind, code, word) for kind, code, word in (
        (3, 0, "unreachable"), (3, 1, "unreachable"), (3, 2, "other"), (3, 3, "refused"), (3, 9, "forbidden"),
        (3, 10, "forbidden"), (3, 13, "forbidden"), (11, 0, "unreachable"), (12, 0, "other"))]
    for to, kind, code, word in errors:
        capture, other = looked_up(), FOUR if to == SIX else SIX
        capture.syn(2, to, 2000)
        capture.error(7, capture.last(), kind, code)
        capture.syn(252, other, 2001)
        capture.accept(262, other, 2001)
        is_recorded(capture, f"attempt {to} {word}", "connected 262", what=f"ICMP {to} {kind} {code}")
    capture = looked_up()
    capture.syn(2, SIX, 2000)
    capture.error(7, capture.last(), 1, 0)
    capture.syn(1002, SIX, 2000)
    capture.accept(1005, SIX, 2000)
    is_recorded(capture, f"untried {FOUR}", "connected 1005", what="an error that the client doesn't heed")
    capture = looked_up()
    capture.syn(2, SIX, 2000)
    capture.error(7, capture.last(), 2, 0)
    capture.accept(20, SIX, 2000)
    is_recorded(capture, f"untried {FOUR}", "connected 20", what="a packet too big is no failure")


def check_given_up():
    """A client that refuses the answer to an attempt had given it up; but if the race was won, it was only too late.
    And an address that accepts, and resets before anything was sent."""
    for late, wanted in ((300, f"attempt {SIX} timed-out"), (500, None)):
        capture = looked_up()
        capture.syn(2, SIX, 2000)
        capture.syn(252, FOUR, 2001)
        capture.accept(late, SIX, 2000)
        capture.segment(late, SIX, 2000, RST, 1001)
        capture.accept(400, FOUR, 2001)
        is_recorded(capture, *([wanted] if wanted else []), "connected 400", what=f"refused at {late}")
    capture = looked_up()
    capture.syn(2, SIX, 2000)
    capture.accept(5, SIX, 2000)
    capture.segment(6, SIX, 2000, RST | ACK, 7001, 1001, back=True)
    capture.syn(8, FOUR, 2001)
    capture.accept(18, FOUR, 2001)
    is_recorded(capture, f"attempt {SIX} reset", "connected 18", what="reset")


def check_results():
    """The client's own end: connected, failed, gave up, or is still at it when the capture ends."""
    capture = looked_up()
    for start, to, port in ((2, SIX, 2000), (10, FOUR, 2001)):
        capture.syn(start, to, port)
        capture.refuse(start + 5, to, port)
    is_recorded(capture, f"attempt {SIX} refused", f"attempt {FOUR} refused", "failed 15", what="failed")
    for last, wanted in ((LATER, ["gave-up 3002"]), (7999, [])):
        capture = looked_up()
        for at in (2, 1002, 3002):
            capture.syn(at, SIX, 2000)
        capture.syn(last, "192.0.2.99", 9)
        is_recorded(capture, f"untried {FOUR}", *wanted, what=f"silent, the last packet at {last}")
    capture = looked_up()
    capture.syn(2, SIX, 2000)
    capture.accept(700, SIX, 2000)
    capture.segment(701, SIX, 2000, RST, 1001)
    is_recorded(capture, f"attempt {SIX} timed-out", f"untried {FOUR}", "gave-up 701", what="refused, no other tried")


def check_share():
    """An untried address has the outcome that another race had, at its port: the nearest in time."""
    def race(capture, at, name, to, port, ends, at_port=443):
        capture.ask(at, name)
        capture.answer_both(at + 1, name)
        capture.syn(at + 2, to, port, at=at_port)
        if ends:
            ends(at + 9, to, port, at=at_port)

    for others, line in (
            ([(-4000, "accept", 443), (9000, "refuse", 443)], f"connect {FOUR} ok 7"),
            ([(-9000, "accept", 443), (4000, "refuse", 443)], f"connect {FOUR} fail 7"),
            ([(-4000, "accept", 80)], f"record untried {FOUR}"), ([(-4000, None, 443)], f"record untried {FOUR}")):
        capture = Capture()
        for number, (at, ends, port) in enumerate(others):
            end = ends and getattr(capture, ends)
            race(capture, 10_000 + at, f"other{number}.test", FOUR, 3000 + number, end, port)
        race(capture, 10_000, NAME, SIX, 2000, capture.accept)
        shared = next(text for text in from_capture(capture, "--share")[0].split("end\n") if f"to {NAME}" in text)
        alone = next(text for text in from_capture(capture)[0].split("end\n") if f"to {NAME}" in text)
        lines = [each for each in shared.splitlines() if FOUR in each and not each.startswith("a ")]
        must(lines == [line] and f"record untried {FOUR}\n" in alone, f"{others}: {lines}")
    capture = Capture()
    race(capture, 0, "other.test", FOUR, 3000, None)
    capture.syn(1002, FOUR, 3000)
    race(capture, 10_000, NAME, SIX, 2000, capture.accept)
    found = from_capture(capture, "--share", "--name", NAME)[0]
    must(FOUR not in re.sub("(?m)^a .*", "", found), "two SYNs, no answer")


def two_clients(capture, macs=(b"", b"")):
    """Two clients ask for one name within a millisecond; the first finds its IPv6 address refused."""
    for mac, client, at in ((macs[0], CLIENT, 0), (macs[1], OTHER, 1)):
        capture.mac = mac
        capture.ask(at, NAME, client=client)
    for client, at in ((CLIENT, 2), (OTHER, 3)):
        capture.mac = b"\2\0\0\0\0\1"
        capture.answer_both(at, NAME, client=client)
    return capture


def check_clients():
    """Two clients of one name are two races, also if they ask at the same time."""
    capture = two_clients(Capture(ETHERNET), (b"\2\0\0\0\0\2", b"\2\0\0\0\0\3"))
    # The second client's SYN comes before the first one's: only the link-layer addresses tell them apart.
    for mac, client, at in ((b"\2\0\0\0\0\3", OTHER6, 4), (b"\2\0\0\0\0\2", CLIENT6, 5)):
        capture.mac = mac
        capture.syn(at, SIX, 2000, client=client)
    capture.mac = b"\2\0\0\0\0\1"
    capture.refuse(6, SIX, 2000, client=CLIENT6)
    capture.accept(30, SIX, 2000, client=OTHER6)
    capture.syn(8, FOUR, 2001)
    capture.accept(18, FOUR, 2001)
    found, said = from_capture(capture)
    must(records(found) == [
        [AT, TO, FROM, f"attempt {SIX} refused", "connected 18"],
        [AT.replace("000Z", "001Z"), TO, f"from {OTHER}", f"untried {FOUR}", "connected 29"]], found)
    must("several addresses ask" in said and found.count("source 2001:db8::3/64 1\n") == 1, said)
    one = records(from_capture(capture, "--client", OTHER, "--client", OTHER6)[0])
    must(one == [[AT.replace("000Z", "001Z"), TO, f"from {OTHER}", f"untried {FOUR}", "connected 29"]], one)
    capture = Capture()
    for at, client, sixth in ((0, CLIENT, CLIENT6), (100, OTHER, OTHER6), (5000, CLIENT, CLIENT6)):
        capture.number += 2
        capture.ask(at, NAME, client=client)
        capture.answer_both(at + 1, NAME, client=client)
        capture.syn(at + 2, SIX, 2000 + at, client=sixth)
        capture.accept(at + 12, SIX, 2000 + at, client=sixth)
    found = records(from_capture(capture)[0])
    must([race[2:] for race in found] == [[f"from {client}", f"untried {FOUR}", "connected 12"]
                                          for client in (CLIENT, OTHER, CLIENT)], found)


def check_other_family():
    """One client that asks its IPv6 name server, and then its IPv4 one, beside another client: one race."""
    capture = Capture()
    capture.ask(0, NAME, client=CLIENT6, server="2001:db8::53")
    capture.ask(5005, NAME)
    capture.answer_both(5006, NAME)
    capture.syn(5007, SIX, 2000)
    capture.accept(5017, SIX, 2000)
    capture.ask(100, "other.test", client=OTHER)
    found = records(from_capture(capture)[0])
    must(found == [[AT, TO, f"from {CLIENT6}", "server 2001:db8::53 silent 5005", f"untried {FOUR}",
                    "connected 5017"]], found)


def check_stub():
    """A resolver of the client's own machine, which asks a name server in turn: one race, of the machine's address.
    That the stub answers late is the name server's fault."""
    capture, stub = Capture(), {"client": "127.0.0.1", "server": "127.0.0.53"}
    capture.ask(0, NAME, **stub)
    capture.number += 2
    capture.ask(1, NAME)
    capture.ask(301, NAME, server=OTHER_SERVER)
    capture.answer_both(303, NAME, server=OTHER_SERVER)
    capture.number -= 2
    capture.answer_both(304, NAME, **stub)
    is_recorded(connected(capture, 305), f"server {SERVER} silent 300", f"untried {FOUR}", "connected 315")


def check_data():
    """Data of a connection that was made, sent again and never acknowledged, has a note; also if the client lacks what
    comes before the data that it got. What is acknowledged has none."""
    for name, add, wanted in (
            ("sent", lambda capture, end: [capture.segment(at, SIX, 2000, ACK, 1001, 7001, b"x" * 1400)
                                           for at in (20, 230, 650, 1500)],
             f"1: 1400 bytes to {SIX} were sent 4 times from 20 to 1500 ms and never acknowledged: larger packets"),
            ("came", lambda capture, end: [capture.segment(at, SIX, 2000, ACK, 7001, 1001, b"x" * 1400, back=True)
                                           for at in (20, 230)],
             f"1: 1400 bytes from {SIX} were sent 2 times from 20 to 230 ms and never acknowledged: larger packets"),
            ("gap", lambda capture, end: [capture.segment(20, SIX, 2000, ACK, 9801, 1001, b"x" * 100, back=True),
                                          capture.segment(20, SIX, 2000, ACK, 1001, 7001)],
             f"1: 100 bytes from {SIX} came at 20 ms, and what comes before them never did: larger packets")):
        for is_acknowledged in (False, True):
            capture = connected(looked_up())
            add(capture, None)
            if is_acknowledged and name == "sent":
                capture.segment(1600, SIX, 2000, ACK, 7001, 2401, back=True)
            elif is_acknowledged:
                capture.segment(1600, SIX, 2000, ACK, 1001, 9901)
            said = from_capture(capture)[1]
            notes = [line for line in said.splitlines() if "path MTU" in line]
            must(len(notes) == (not is_acknowledged) and all(note.startswith(wanted) for note in notes),
                 f"{name}, {is_acknowledged}: {said}")


def check_streams():
    """Standard input; a capture that is cut short at each of its last bytes, or damaged after its first races."""
    capture = connected(looked_up())
    file = capture.write(OPTIONS.folder / "whole.pcap")
    whole, wanted = file.read_bytes(), from_capture(file)[0]
    ran = run(ROOT / "tools/from-capture", "-", input=whole)
    must(ran.returncode == 0 and ran.stdout == wanted.encode(), ran.stderr)
    with open(file, "rb") as stream:
        must(run(ROOT / "tools/from-capture", "-", stdin=stream).stdout == wanted, "a file as standard input")
    for less in (1, 30, 55):
        file.write_bytes(whole[:-less])
        found, said = from_capture(file)
        must(records(found) == records(wanted) and "cut short in the middle of a packet" in said, f"{less}: {said}")
    empty = run(ROOT / "tools/from-capture", "-", input=b"")
    must(empty.returncode == 1 and empty.stdout == b"" and empty.stderr.count(b"\n") == 1, empty.stderr)


def write_many(file, size, names, idle=0):
    """A capture of this size: SYNs and DNS messages of races at one address, whose names come again after some;
    first names that are only looked up."""
    def packets(number):
        capture = Capture()
        capture.number = number % 65_000
        name, port = f"name{number % names}.test", 1024 + number % 60_000
        capture.ask(0, name)
        capture.answer_both(1, name)
        if number >= idle:
            capture.syn(2, SIX, port, sequence=number)
            capture.segment(4, SIX, port, SYN | ACK, 7000, number + 1, back=True)
            capture.segment(9, SIX, port, FIN | ACK, number + 1, 7001)
        return capture.packets

    with open(file, "wb") as out:
        out.write(struct.pack("<IHHiIII", 0xA1B2C3D4, 2, 4, 0, 0, 65535, written.RAW))
        number = 0
        while out.tell() < size:
            for ms, _, packet in packets(number):
                at = written.BEGUN + number * 20 + ms
                out.write(struct.pack("<IIII", at // 1000, at % 1000 * 1000, len(packet), len(packet)) + packet)
            number += 1
    return number


def seconds_of(*words):
    """The processor time of a command, and what it wrote."""
    begun = seconds_of_children()
    ran = run(*words)
    must(ran.returncode == 0, ran.stderr[-300:])
    return seconds_of_children() - begun, ran.stdout


@timed
def check_time():
    """The processor time for 4 MB of SYNs and DNS messages is at most 16 times that of tshark alone on this machine: of
    one name, of as many as there are races, and of such that are first only looked up. 100 MB are read where there is
    time for that."""
    needs("tshark")
    file = OPTIONS.folder / "many.pcap"
    sizes = [(4, 1, 0), (4, 10**9, 0), (4, 10**9, 3000)] + ([(100, 10**9, 0)] if OPTIONS.full else [])
    for size, names, idle in sizes:
        races = write_many(file, size * MEGABYTES, names, idle) - idle
        alone, _ = seconds_of("tshark", "-n", "-r", file)
        taken, written_races = seconds_of(ROOT / "tools/from-capture", file)
        must(written_races.count("\nend\n") == races, f"{size} MB, {names} names: {races} races")
        must(taken <= 16 * alone, f"{size} MB, {names} names: {taken:.1f} s, tshark {alone:.1f} s")


def with_options(packet):
    """An IPv6 packet with a destination options header; another packet as it is."""
    if packet[0] >> 4 == 4:
        return packet
    length = struct.pack("!HB", len(packet) - 32, 60)
    return packet[:4] + length + packet[7:40] + bytes([packet[6], 0, 1, 4, 0, 0, 0, 0]) + packet[40:]


def tunnelled(packet):
    """An IPv6 packet in an IPv4 one (6in4); another packet as it is."""
    return packet if packet[0] >> 4 == 4 else written.ip(address("192.0.2.9"), address("192.0.2.10"), 41, packet)


def check_layers():
    """These packets over Ethernet, with one VLAN tag and with two, with an extension header, and in a tunnel."""
    for name, link, tags, change in (
            ("raw", written.RAW, b"", bytes), ("Ethernet", ETHERNET, b"", bytes),
            ("VLAN", ETHERNET, b"\x81\0\0\x0a", bytes), ("two tags", ETHERNET, b"\x88\xa8\0\x14\x81\0\0\x0a", bytes),
            ("options", ETHERNET, b"", with_options), ("tunnel", written.RAW, b"", tunnelled)):
        plain, capture = looked_up(), Capture(link)
        plain.syn(2, SIX, 2000)
        plain.error(7, plain.last(), 1, 1)
        plain.syn(252, FOUR, 2001)
        plain.accept(262, FOUR, 2001)
        for ms, _, packet in plain.packets:
            capture.add(ms, change(packet), tags)
        is_recorded(capture, f"attempt {SIX} forbidden", "connected 262", what=name)


def filters(text):
    """The capture filters of a document: the one of all interfaces, and with it the one of packets with VLAN tags."""
    wanted = " ".join(re.search(r"wanted='([^']*)'", text)[1].split())
    tagged = re.search(r'"(\$wanted or \(vlan and .*)"', text)[1].replace("$wanted", wanted)
    return wanted, tagged


def check_filter():
    """The documented filters take queries, SYNs, resets and ICMP errors, of IPv6 also after an extension header, and
    with VLAN tags; and they leave data out."""
    needs("tcpdump")
    wanted, tagged = filters((ROOT / "tools/from-capture").read_text())
    for document in ("docs/CLIENTS.md", "docs/INCIDENT.md"):
        must(filters((ROOT / document).read_text()) == (wanted, tagged), f"{document} has another filter")

    def six(header):
        syn = written.tcp(address(CLIENT6), 2000, address(SIX), 443, 1000, SYN)
        return written.ip(address(CLIENT6), address(SIX), header, bytes([6, 0, 1, 4, 0, 0, 0, 0]) + syn[40:])

    for tags, filter in ((b"", wanted), (b"", tagged), (b"\x81\0\0\x0a", tagged)):
        capture = looked_up()
        capture.link = ETHERNET
        capture.packets, plain = [], [packet for _, _, packet in capture.packets]
        for header in (0, 43, 60):
            plain.append(six(header))
        for to in (SIX, FOUR):
            raw = Capture()
            raw.syn(0, to, 2000)
            raw.error(0, raw.last(), *((1, 0) if to == SIX else (3, 1)))
            raw.segment(0, to, 2000, RST, 1001)
            raw.segment(0, to, 2000, FIN | ACK, 1001)
            plain += [packet for _, _, packet in raw.packets]
        for packet in plain:
            capture.add(0, packet, tags)
        for to in (SIX, FOUR):
            raw = Capture()
            raw.segment(0, to, 2000, ACK, 1001, 7001, b"data")
            capture.add(0, raw.last(), tags)
        file = capture.write(OPTIONS.folder / "filtered.pcap")
        kept = OPTIONS.folder / "kept.pcap"
        ran = run("tcpdump", "-r", file, "-w", kept, filter)
        must(ran.returncode == 0, ran.stderr)
        sizes = 24 + sum(16 + len(packet) for _, _, packet in capture.packets[:len(plain)])
        must(kept.stat().st_size == sizes, f"{filter}, tags {tags}: {kept.stat().st_size} bytes, not {sizes}")
