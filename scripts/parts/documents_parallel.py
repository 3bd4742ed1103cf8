"""The lines of docs/FORMAT.md that begin with `parallel` write the transcripts of a longer text, on this machine and
over ssh on two hosts, which are network namespaces.

needs: GNU parallel, sshd, ip and root
"""
import contextlib
import os

import support
from parts.documents import shell_lines
from support import DATA, OPTIONS, ROOT, must

# The hosts, each in a namespace, and their addresses.
HOSTS = {"one": "10.78.1.2", "two": "10.78.2.2"}
SETUP = "mkdir -p /run/netns; mount -t tmpfs tmpfs /run/netns; ip link set lo up\n" + "".join(f"""
ip netns add {name}
ip link add to-{name} type veth peer name eth0 netns {name}
ip address add {address[:-1]}1/24 dev to-{name}
ip link set to-{name} up
ip -n {name} address add {address}/24 dev eth0
ip -n {name} link set eth0 up
""" for name, address in HOSTS.items())
DRAWN, TIMES = DATA / "one-thousand-drawn-races", 9  # so often more than two pieces


def check_lines():
    """The pieces are shared by the hosts that a line names."""
    support.needs("parallel")
    folder, log = OPTIONS.folder, OPTIONS.folder / "log"
    (folder / "he").symlink_to(OPTIONS.program)
    (folder / "corpus.timeline").write_bytes(DRAWN.with_suffix(".timeline").read_bytes() * TIMES)
    environment = {**os.environ, "PATH": f"{folder}:{os.environ['PATH']}", "HOME": str(folder),
                   "PARALLEL_SSH": f"ssh -F {folder}/config", "PARALLEL": f"--will-cite --joblog {log}"}
    with contextlib.ExitStack() as held:
        for name, address in HOSTS.items():
            (folder / name).mkdir()
            inside, settings = ["ip", "netns", "exec", name], [f"SetEnv PATH={folder}:/usr/bin"]
            _, words = held.enter_context(support.sshd(address, folder / name, 22, inside, settings))
            options = [word[2:].replace("=", " ") for word in words if word.startswith("-o")]
            with (folder / "config").open("a") as config:
                print(f"Host {name}", f"HostName {address}", f"IdentityFile {folder / name}/key", *options,
                      sep="\n", file=config)
        for line in shell_lines((ROOT / "docs/FORMAT.md").read_text()):
            if not line.startswith("parallel "):
                continue
            done = support.run("sh", "-c", line, cwd=folder, env=environment, timeout=600)
            hosts = {row.split("\t")[1] for row in log.read_text().splitlines()[1:]}
            must(done.returncode == 0 and hosts == (set(HOSTS) if "--sshlogin" in line else {":"}), line, done.stderr,
                 hosts)
            written, wanted = folder / "corpus.transcript", DRAWN.with_suffix(".transcript").read_bytes() * TIMES
            must(written.read_bytes() == wanted, line, "writes something else")
