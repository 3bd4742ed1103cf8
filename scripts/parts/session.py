"""Runs the sessions in README.md and docs/, their blocks of `console`, in a network of its own: a client, a router
whose firewall drops packets to shop.example and www.example.com by IPv6, and a host with their servers.

A line that begins with `$ ` is run by a shell of the client, with the built program as `he`, and one that begins with
`router# ` by one of the router; the lines after it, up to the next one or the block's end, are what standard output and
standard error must hold. The lines below `cat /etc/resolv.conf` are that file's from then on. Times may differ by 100
ms, and each date is as good as another; on a busy machine a page is tried again.

needs: ip, nft, wget and tcpdump
"""
import contextlib
import os
import pathlib
import re
import subprocess
import sys

import support
from parts.documents import blocks_of_markdown, is_alike, shell_lines
from support import A, OPTIONS, ROOT, NameServer, NotTried, addresses, kind_of, labels_of, message, must, needs, tell

PAGES = [ROOT / "README.md", *sorted((ROOT / "docs").glob("*.md"))]
PORTS = (80, 443)
NAME_SERVER = "192.0.2.53"  # at the client itself; nobody has 192.0.2.77
OWN_SERVERS = pathlib.Path("/run/he/resolv.conf")  # which is /etc/resolv.conf in the part's own namespace
A_LATER = 0.01  # seconds from an AAAA answer to that for A, so that both come in one order
BROKEN, FINE = ["2001:db8:77::80", "198.51.100.80"], ["2001:db8:78::80", "198.51.100.81"]
NAMES = {"shop.example": BROKEN, "www.example.com": BROKEN, "fine.example": FINE}
SETUP = """
mkdir -p /run/netns /run/he
mount -t tmpfs tmpfs /run/netns
mount -t tmpfs tmpfs /run/he
ip netns add router
ip netns add far
ip link add eth0 type veth peer name office netns router
ip link add uplink netns router type veth peer name eth0 netns far
ip address add 192.0.2.23/24 dev eth0
ip address add 2001:db8:5::23/64 dev eth0 nodad
ip address add 192.0.2.53/32 dev lo
ip -n router address add 192.0.2.1/24 dev office
ip -n router address add 2001:db8:5::1/64 dev office nodad
ip -n router address add 203.0.113.1/24 dev uplink
ip -n router address add 2001:db8:6::1/64 dev uplink nodad
ip -n far address add 203.0.113.2/24 dev eth0
ip -n far address add 2001:db8:6::2/64 dev eth0 nodad
for device in lo eth0; do
    ip link set $device up
    ip -n far link set $device up
done
for device in lo office uplink; do
    ip -n router link set $device up
done
ip route add default via 192.0.2.1
ip route add default via 2001:db8:5::1
ip -n router route add 198.51.100.0/24 via 203.0.113.2
ip -n router route add 2001:db8:77::/48 via 2001:db8:6::2
ip -n router route add 2001:db8:78::/48 via 2001:db8:6::2
ip -n far route add 192.0.2.0/24 via 203.0.113.1
ip -n far route add 2001:db8:5::/64 via 2001:db8:6::1
ip neighbour add 192.0.2.77 lladdr 02:00:00:00:00:77 dev eth0
ip netns exec router sh -c 'echo 1 > /proc/sys/net/ipv4/ip_forward; echo 1 > /proc/sys/net/ipv6/conf/all/forwarding'
mount -t sysfs sysfs /sys
""" + "".join(f"ip -n far address add {ip} dev lo{' nodad' * (':' in ip)}\n" for ip in BROKEN + FINE) + \
    support.file_of_etc("hosts", "127.0.0.1 localhost\n") + \
    support.file_of_etc("resolv.conf", "")
WEB = """import http.server, socket, sys, threading
class Shop(http.server.BaseHTTPRequestHandler):
    def do_GET(self):
        self.send_response(200)
        self.send_header("Content-Length", "6")
        self.end_headers()
        self.wfile.write(b"hello\\n")
    def log_message(self, *_):
        pass
class Six(http.server.ThreadingHTTPServer):
    address_family = socket.AF_INET6
for ip in sys.argv[1].split():
    for port in sys.argv[2].split():
        server = (Six if ":" in ip else http.server.ThreadingHTTPServer)((ip, int(port)), Shop)
        threading.Thread(target=server.serve_forever).start()
print(flush=True)
"""
FIREWALL = """flush ruleset
table ip6 filter {
    chain forward {
        type filter hook forward priority filter; policy accept;
        ip6 daddr 2001:db8:77::/48 drop
    }
}
"""
END = "end of what command %d prints"
DATE = r"\d{4}-\d\d-\d\d \d\d:\d\d:\d\dZ"


def commands_of(block):
    """Pairs of a command line, as the client's shell runs it, and what is written below it."""
    commands = []
    for line in block.splitlines(keepends=True):
        if line.startswith("$ "):
            commands.append((line[2:], []))
        elif line.startswith("router# "):
            commands.append((f"ip netns exec router {line[8:]}", []))
        else:
            commands[-1][1].append(line)
    return [(set_in(command, "".join(lines)), "".join(lines)) for command, lines in commands]


def set_in(command, lines):
    """The command, before which the file of name servers gets the lines below it if it prints that file."""
    is_setting = command == "cat /etc/resolv.conf\n"
    return f"cat > {OWN_SERVERS} << end\n{lines}end\n{command}" if is_setting else command


def printed_by(commands, folder):
    """The output of each command, all by one shell, so that one may run while others do."""
    script = "".join(f"{command}\necho {END % number}\n" for number, (command, _) in enumerate(commands))
    path = folder / "commands"
    path.write_text(script)
    with open(folder / "printed", "w+") as file:
        subprocess.run(["bash", path], cwd=folder, stdin=subprocess.DEVNULL, stdout=file, stderr=file, timeout=300,
                       preexec_fn=support.first_of_all)
        file.seek(0)
        printed = file.read()
    for number in range(len(commands)):
        one, found, printed = printed.partition(f"{END % number}\n")
        must(found, f"no end of command {number}: {one}")
        yield one


def wrong_of(page, folder):
    """The faults of a page: each command whose output is another one."""
    commands = [command for block in blocks_of_markdown(page.read_text(), "console") for command in commands_of(block)]
    for (command, written), printed in zip(commands, printed_by(commands, folder)):
        dated = [re.sub(DATE, "DATE", text) for text in (printed, written)]
        if not is_alike(*dated, has_raced=True):
            yield f"{page.relative_to(ROOT)}: $ {command}prints\n{printed}in place of\n{written}"


class Names(NameServer):
    def replies(self, query, _):
        found, kind = NAMES.get(".".join(labels_of(query)), []), kind_of(query)
        return [(A_LATER if kind == A else 0, message(query, addresses(kind, *found)))]


@contextlib.contextmanager
def servers():
    words = " ".join(BROKEN + FINE), " ".join(map(str, PORTS))
    web = ["ip", "netns", "exec", "far", sys.executable, "-c", WEB, *words]
    with Names(NAME_SERVER, 53), subprocess.Popen(web, stdout=subprocess.PIPE, text=True) as server:
        try:
            must(server.stdout.readline() == "\n", "the servers do not listen")
            yield
        finally:
            server.terminate()


def set_firewall(rules):
    done = support.run("ip", "netns", "exec", "router", "nft", "-f", "-", input=rules)
    if done.returncode:
        raise NotTried(f"no rules of a firewall can be set: {done.stderr.strip()}")


@support.timed
def check_pages():
    """Each page, in a folder of its own, and once more where it isn't right."""
    needs("ip", "nft", "wget")
    if not os.path.exists("/etc/resolv.conf") or not OWN_SERVERS.samefile("/etc/resolv.conf"):
        raise NotTried("no /etc/resolv.conf")
    (OPTIONS.folder / "bin").mkdir()
    (OPTIONS.folder / "bin/he").symlink_to(OPTIONS.program)
    os.environ["PATH"] = f"{OPTIONS.folder}/bin:{os.environ['PATH']}"
    with servers():
        for page in PAGES:
            if "```console\n" not in page.read_text():
                continue
            for tries_left in (1, 0):
                folder = OPTIONS.folder / f"{page.stem}-{tries_left}"
                folder.mkdir()
                OWN_SERVERS.write_text(f"nameserver {NAME_SERVER}\n")
                set_firewall(FIREWALL)
                wrong = list(wrong_of(page, folder))
                if not wrong:
                    break
                if tries_left:
                    print(f"{page.name}: tried again: machine busy")
            tell(not wrong, *wrong)


def check_rules():
    """The rules of a firewall in INCIDENT.md are such, and its filter of a capture is one."""
    needs("ip", "nft", "tcpdump")
    chains = "".join(f"chain {hook} {{ type filter hook {hook} priority filter; policy drop; }}\n"
                     for hook in ("input", "forward"))
    set_firewall(f"flush ruleset\ntable inet filter {{\n{chains}}}\n")
    lines = shell_lines((ROOT / "docs/INCIDENT.md").read_text())
    rules = [line.removeprefix("sudo ") for line in lines if line.startswith("sudo nft ")]
    must(rules, "no rule")
    for rule in rules:
        done = support.run("ip", "netns", "exec", "router", "sh", "-c", rule)
        tell(done.returncode == 0, rule, done.stderr)
    pages = "\n".join((ROOT / "docs" / name).read_text() for name in ("INCIDENT.md", "CLIENTS.md"))
    for wanted in re.findall(r"(?ms)^wanted='(.*?)'$", pages):
        for words in (wanted, f"{wanted} or (vlan and ({wanted}))"):
            done = support.run("tcpdump", "-i", "eth0", "-d", words)
            tell(done.returncode == 0, words, done.stderr)
