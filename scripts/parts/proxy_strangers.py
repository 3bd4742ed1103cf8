"""Connects through a built program's `he proxy` as another machine does, a network namespace of its own: whom it serves,
and which addresses it connects such a client to.

needs: root and `unshare`, `nsenter` and `ip` for the other machine. Its addresses are in no registry of addresses for a
special purpose; all packets stay on a link between the two namespaces.
"""
import contextlib
import ctypes
import functools
import os
import socket
import subprocess
import threading

import support
from parts.proxy import Proxy, all_of, socks
from support import FOUR, SIX, TIMEOUT, WIDE_FOUR, accept_all, comes, greet, must, needs, run

SETUP = support.NETWORK
NEAR, FAR = "11.0.0.1", "11.0.0.2"  # addresses of this machine and of the other one, which are globally reachable
NEAR_SIX, FAR_SIX = "2a00:1:2:3::1", "2a00:1:2:3::2"
CLONE_NEWNET = 0x40000000
SERVED, FORBIDDEN, SILENT, NO_HOST = 0, 2, 4, 4  # replies of SOCKS 5
LIMIT = "300"  # milliseconds of a race
# Of no machine here: what the registries have for a special purpose, or IPv4 addresses of such inside IPv6 ones.
SPECIAL = ("10.9.9.9", "100.64.0.9", "169.254.9.9", "172.16.0.9", "192.0.0.99", "192.0.2.9", "192.168.9.9", "198.18.0.9",
           "198.51.100.9", "203.0.113.9", "240.0.0.9", "::a09:909", "64:ff9b::a09:909", "64:ff9b:1::1", "100::9",
           "2001::9", "2001:2::9", "2001:db8::9", "2002:a09:909::1", "3fff::9", "5f00::9", "fc00::9", "fec0::9")
# Of no machine either, and globally reachable.
GLOBAL = ("11.0.1.9", "192.0.1.9", "64:ff9b::b00:109", "2002:b00:109::1", "2a00:9::9", "2001:4860::9")


class Stranger:
    """Another machine: this process can make sockets there."""

    # What is set up of the link between both, here and there.
    HERE = (f"address add {NEAR}/24 dev near", f"address add {NEAR_SIX}/64 dev near nodad", "link set near up",
            f"-4 route add default via {FAR}", "-6 route add default dev near")
    THERE = ("link set lo up", f"address add {FAR}/24 dev far", f"address add {FAR_SIX}/64 dev far nodad",
             "link set far up")

    def __enter__(self):
        needs("unshare", "nsenter")
        self.idle = subprocess.Popen(["unshare", "-n", "sleep", "600"])
        here = os.readlink("/proc/self/ns/net")
        self.net = f"/proc/{self.idle.pid}/ns/net"
        must(comes(lambda: os.readlink(self.net) != here), "no namespace of its own")
        for words in (f"link add near type veth peer name far netns {self.idle.pid}", *self.HERE):
            run("ip", *words.split(), check=True)
        for words in self.THERE:
            run("nsenter", f"--net={self.net}", "ip", *words.split(), check=True)
        return self

    def __exit__(self, *_):
        run("ip", "link", "del", "near")
        self.idle.kill()
        self.idle.wait()

    def made(self, make):
        """What `make` makes there: a thread enters the namespace and ends, a socket stays in it."""
        given = []

        def enter():
            with open(self.net) as net:
                must(ctypes.CDLL(None, use_errno=True).setns(net.fileno(), CLONE_NEWNET) == 0, "setns fails")
            given.append(make())
        thread = threading.Thread(target=enter)
        thread.start()
        thread.join(TIMEOUT)
        return given[0]

    @contextlib.contextmanager
    def serving(self):
        """A server there, at its address; gives the port."""
        with self.made(functools.partial(socket.create_server, (FAR, 0))) as listener:
            thread = accept_all(listener, greet)
            yield listener.getsockname()[1]
            listener.shutdown(socket.SHUT_RDWR)
            thread.join(TIMEOUT)

    def asks(self, proxy, host, port, at=NEAR):
        """The code of the proxy's reply to it."""
        with self.made(lambda: socket.create_connection((at, proxy.port), TIMEOUT)) as client:
            return socks(client, host, port)


@contextlib.contextmanager
def serving_everywhere():
    """A server at all addresses of this machine; gives its port."""
    with socket.create_server(("::", 0), family=socket.AF_INET6, dualstack_ipv6=True) as listener:
        thread = accept_all(listener, greet)
        yield listener.getsockname()[1]
        listener.shutdown(socket.SHUT_RDWR)
        thread.join(TIMEOUT)


def must_reply(asks, rows):
    for host, port, wanted in rows:
        code = asks(host, port)
        must(code == wanted, f"{host} port {port}: {code}, not {wanted}")


def check_reaches():
    """It reaches what is globally reachable, and no address of the proxy's machine."""
    with Stranger() as stranger, serving_everywhere() as port, stranger.serving() as far, \
            Proxy("--allow", "11.0.0.0/24", "--timeout", LIMIT, at=NEAR) as proxy:
        asks = functools.partial(stranger.asks, proxy)
        must_reply(asks, [(FAR, far, SERVED)])
        must_reply(asks, [(host, port, FORBIDDEN) for host in (NEAR, NEAR_SIX, WIDE_FOUR, SIX, FOUR, "::1", f"::ffff:{NEAR}",
                                                               "64:ff9b::7f00:1")])
        must_reply(asks, [(host, port, NO_HOST) for host in ("0.0.0.0", "::")])
        must_reply(asks, [(host, port, FORBIDDEN) for host in SPECIAL])
        must_reply(asks, [(host, port, SILENT) for host in GLOBAL])


def check_itself():
    """Nobody reaches the proxy, by none of the addresses of its machine where it listens at all of them."""
    with Stranger() as stranger, Proxy("--allow", "11.0.0.0/24", "--timeout", LIMIT, at="0.0.0.0") as proxy:
        for asks in (functools.partial(stranger.asks, proxy), lambda host, port: proxy.ask(host, port)[0]):
            must_reply(asks, [(host, proxy.port, FORBIDDEN)
                              for host in (NEAR, WIDE_FOUR, FOUR, "127.9.9.9", f"::ffff:{NEAR}")])


def check_near():
    """A program of the proxy's machine that comes by an address of its network reaches all of the machine, and has the
    page of the races, which another machine hasn't."""
    request = "GET / HTTP/1.1\r\nHost: {}:{}\r\n\r\n"

    def page(client, proxy):
        client.sendall(request.format(NEAR, proxy.port).encode())
        return all_of(client).split(b" ", 2)[1]

    with Stranger() as stranger, serving_everywhere() as port, Proxy("--allow", "11.0.0.0/24", at=NEAR) as proxy:
        at = (NEAR, proxy.port)
        with socket.create_connection(at, TIMEOUT, source_address=(NEAR, 0)) as client:
            must(socks(client, FOUR, port) == SERVED, "a program of this machine does not reach it")
        with socket.create_connection(at, TIMEOUT, source_address=(NEAR, 0)) as client:
            must(page(client, proxy) == b"200", "a program of this machine has no page")
        with stranger.made(lambda: socket.create_connection(at, TIMEOUT)) as client:
            must(page(client, proxy) == b"501", "another machine has the page")


def check_configuration():
    """A client of another machine gets the configuration for browsers under the address at which it came, and under no
    other name."""
    with Stranger() as stranger, Proxy("--allow", "11.0.0.0/24", at="0.0.0.0") as proxy:
        for path in ("/proxy.pac", "/wpad.dat"):
            for host, status in ((f"{NEAR}:{proxy.port}", b"200"), (f"evil.example:{proxy.port}", b"501")):
                with stranger.made(lambda: socket.create_connection((NEAR, proxy.port), TIMEOUT)) as client:
                    client.sendall(f"GET {path} HTTP/1.1\r\nHost: {host}\r\n\r\n".encode())
                    got = all_of(client)
                must(got.split(b" ", 2)[1] == status, path, host, got)
                must((f"SOCKS5 {NEAR}:{proxy.port};".encode() in got) == (status == b"200"), path, host, got)


def check_served():
    """A client whose network isn't allowed is not served; with --allow-private one that is reaches this machine too."""
    with Stranger() as stranger, serving_everywhere() as port:
        with Proxy("--allow", "11.0.9.0/24", at=NEAR) as proxy:
            code = None
            with contextlib.suppress(ConnectionError):
                code = stranger.asks(proxy, FOUR, port)
            must(code is None, f"a client that is not allowed is served: {code}")
            with contextlib.suppress(ConnectionError):
                stranger.asks(proxy, FOUR, port)
            turned = [line for line in proxy.said().splitlines() if line.endswith(" end=turned-away")]
            must(len(turned) == 1 and f" client={FAR}:" in turned[0], f"not one line: {proxy.said()!r}")
        with Proxy("--allow", "11.0.0.0/24", "--allow-private", at=NEAR) as proxy:
            must_reply(functools.partial(stranger.asks, proxy), [(FOUR, port, SERVED), (NEAR, port, SERVED)])
