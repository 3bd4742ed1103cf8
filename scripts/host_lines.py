"""The `source` and `route` lines of a timeline for a machine: a second reading of what `he host` writes, by `ip -j` of
iproute2.

Sources are the addresses of interfaces that are up; an address that is not yet, or never will be, in use (tentative,
or found twice on the link) is left out. Routes are those of the main table, of each prefix the one with the least
metric, and the loopback's own. Routes over interfaces that encapsulate have the mark `tunnel`.
"""
import ipaddress
import json

from support import run

COMMANDS = ("-d address", "-4 route show table all", "-6 route show table all")
TUNNELS = {"tun", "wireguard", "sit", "gre", "ip6gre", "ipip", "ip6tnl", "vti", "vti6", "xfrm"}
ROUTE_TYPES = {"unicast", "local"}
LEAST_METRIC = {4: 0, 6: 1024}  # where none is printed: Linux prefers IPv4 routes of metric 0, IPv6 routes have 1024
MAPPED = ipaddress.ip_network("::ffff:0:0/96")


def is_usable(address):
    return not (address.is_unspecified or address.is_multicast or (address.version == 6 and address in MAPPED))


def is_in_use(info):
    return not (info.get("tentative") or info.get("dadfailed"))


def addresses_of(interfaces):
    """Each address of an interface that is up, after that."""
    return [(interface, info) for interface in interfaces if "UP" in interface["flags"]
            for info in interface.get("addr_info", []) if "local" in info]


def sources_of(interfaces):
    """Each address, once: address, prefix length, interface, marks."""
    sources = {}
    for interface, info in addresses_of(interfaces):
        address = ipaddress.ip_address(info["local"])
        if is_usable(address) and is_in_use(info):
            marks = [mark for mark in ("deprecated", "temporary") if info.get(mark)]
            sources.setdefault(address, (info["prefixlen"], interface["ifindex"], marks))
    return sources


def hops_of(route):
    """The interfaces of a route, the first of which is taken; none where it is of no use."""
    if route.get("type", "unicast") not in ROUTE_TYPES:
        return []
    hops = route.get("nexthops", [route])
    return [hop["dev"] for hop in hops if "dev" in hop and not {"dead", "linkdown"} & set(hop.get("flags", []))]


def prefix_of(route, version):
    everything = "0.0.0.0/0" if version == 4 else "::/0"
    return ipaddress.ip_network(everything if route["dst"] == "default" else route["dst"])


def routes_of(interfaces, routes4, routes6):
    """By prefix, the interface of the route with the least metric, and whether that encapsulates."""
    by_name = {interface["ifname"]: interface for interface in interfaces}
    found = {}
    for version, routes in ((4, routes4), (6, routes6)):
        for route in routes:
            hops = [name for name in hops_of(route) if name in by_name]
            if hops and route.get("table", "main") == "main":
                prefix = prefix_of(route, version)
                metric = route.get("metric", LEAST_METRIC[version])
                if prefix not in found or metric < found[prefix][0]:
                    found[prefix] = (metric, by_name[hops[0]])
    for interface, info in addresses_of(interfaces):
        own = ipaddress.ip_interface(f"{info['local']}/{info['prefixlen']}").network
        if "LOOPBACK" in interface["flags"] and own.is_loopback:
            found.setdefault(own, (0, interface))
    return {prefix: (interface["ifindex"], interface.get("linkinfo", {}).get("info_kind") in TUNNELS)
            for prefix, (_, interface) in found.items()}


def lines_of(interfaces, routes4, routes6):
    for address, (length, number, marks) in sources_of(interfaces).items():
        yield " ".join(["source", f"{address}/{length}", str(number), *marks]) + "\n"
    for prefix, (number, is_tunnel) in routes_of(interfaces, routes4, routes6).items():
        yield " ".join(["route", str(prefix), str(number)] + ["tunnel"] * is_tunnel) + "\n"


def recorded_lines(folder):
    """Of a host that was recorded: the output of the commands is in three files."""
    return "".join(lines_of(*(json.loads((folder / name).read_text() or "[]")
                              for name in ("address.json", "route4.json", "route6.json"))))


def machine_lines(*inside):
    """Of this machine, or of that in which these words run a command."""
    return "".join(lines_of(*(json.loads(run(*inside, "ip", "-j", *words.split(), check=True).stdout or "[]")
                              for words in COMMANDS)))
