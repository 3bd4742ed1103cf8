"""Connects through a built program's `he proxy` by the programs that people use.

needs: curl, wget, apt, git, npm, node, pip, Python with requests, Go, a JDK, Chromium, Firefox, nc, ssh, sshd, openssl:
what is missing is reported
"""
import contextlib
import io
import json
import pathlib
import re
import shutil
import socket
import ssl
import subprocess
import tarfile
import tempfile
import zipfile

import support
from parts.proxy import SOON, Proxy
from support import FOUR, TIMEOUT, NotTried, comes, greet, must, needs, serving, unused_port

SETUP = support.NETWORK


# Programs that people use


def own_tls(folder):
    """A TLS context with a certificate that it has signed itself, which is also in the store `trust` for Java."""
    needs("openssl")
    support.run("openssl", "req", "-x509", "-newkey", "rsa:2048", "-nodes", "-days", "2", "-subj", "/CN=both.test",
                "-addext", "subjectAltName=DNS:both.test", "-keyout", f"{folder}/key", "-out", f"{folder}/certificate")
    if shutil.which("keytool"):
        support.run("keytool", "-importcert", "-noprompt", "-alias", "it", "-file", f"{folder}/certificate",
                    "-keystore", f"{folder}/trust", "-storepass", "secret")
    context = ssl.SSLContext(ssl.PROTOCOL_TLS_SERVER)
    context.load_cert_chain(f"{folder}/certificate", f"{folder}/key")
    return context


CURL = "curl -sSk --noproxy , --proxy {}://AT {}://both.test:{}/page.txt"
APT = "/usr/lib/apt/apt-helper -o Acquire::{0}::Proxy={1}://AT -o Acquire::https::CAInfo=FOLDER/certificate " \
      "download-file {0}://both.test:{2}/page.txt OUT"
REQUESTS = "/usr/bin/python3 -c import\trequests;print(requests.get('{0}://both.test:{1}/page.txt'," \
           "proxies={{'{0}':'http://AT'}},verify='FOLDER/certificate').text,end='')"
PIP = "pip -q --disable-pip-version-check download --no-deps --no-cache-dir --proxy http://AT " \
      "--trusted-host both.test -d OUT {0}://both.test:{1}/it-1.0-py3-none-any.whl"
NPM = "env npm_config_proxy=http://AT npm_config_https_proxy=http://AT npm_config_cafile=FOLDER/certificate " \
      "npm_config_update_notifier=false npm_config_cache=FOLDER/npm npm install --no-audit --no-fund --prefix OUT " \
      "{0}://both.test:{1}/it-1.0.0.tgz"
GO = "env http_proxy=http://AT https_proxy=http://AT SSL_CERT_FILE=FOLDER/certificate FOLDER/page " \
     "{0}://both.test:{1}/page.txt"
JAVA = "java -Dhttp.proxyHost=FOUR -Dhttp.proxyPort=PROXY -Dhttps.proxyHost=FOUR -Dhttps.proxyPort=PROXY " \
       "-Djavax.net.ssl.trustStore=FOLDER/trust -Djavax.net.ssl.trustStorePassword=secret FOLDER/Page.java " \
       "{0}://both.test:{1}/page.txt"
CHROMIUM = "chromium --headless --no-sandbox --disable-gpu --disable-dev-shm-usage --no-first-run " \
           "--disable-background-networking --disable-component-update --ignore-certificate-errors " \
           "--user-data-dir=FOLDER/user --proxy-server={0}://AT --dump-dom {1}://both.test:{2}/page.txt"
BY_SCHEME = {"without TLS": ("http", "PORT"), "with TLS": ("https", "TLS")}

# By name what gets a page: AT is the proxy, PORT and TLS are those of the page without and with TLS.
PROGRAMS = {
    **{f"curl by {way}, {how}": CURL.format(scheme, *at)
       for way, scheme in (("SOCKS 5", "socks5h"), ("SOCKS 4A", "socks4a"), ("HTTP", "http"))
       for how, at in BY_SCHEME.items()},
    "curl by CONNECT": "curl -sS --noproxy , --proxytunnel --proxy http://AT http://both.test:PORT/page.txt",
    "wget by plain HTTP": "wget -qO- -e use_proxy=yes -e http_proxy=http://AT http://both.test:PORT/page.txt",
    "wget": "wget -qO- --no-check-certificate -e use_proxy=yes -e https_proxy=http://AT https://both.test:TLS/page.txt",
    **{f"apt by {way}, {how}": APT.format(at[0], scheme, at[1])
       for way, scheme in (("SOCKS 5", "socks5h"), ("HTTP", "http")) for how, at in BY_SCHEME.items()},
    "python": "python3 -c import\thttp.client,sys;c=http.client.HTTPConnection('FOUR',PROXY);"
              "c.set_tunnel('both.test',PORT);c.request('GET','/page.txt');"
              "print(c.getresponse().read().decode(),end='')",
    **{f"{name}, {how}": line.format(*at)
       for name, line in (("requests", REQUESTS), ("pip", PIP), ("npm", NPM), ("Go", GO), ("Java", JAVA))
       for how, at in BY_SCHEME.items()},
    **{f"Chromium by {way}, {how}": CHROMIUM.format(scheme, *at)
       for way, scheme in (("SOCKS 5", "socks5"), ("HTTP", "http")) for how, at in BY_SCHEME.items()},
}
GO_PAGE = """package main

import ("io"; "net/http"; "os")

func main() {
    response, err := http.Get(os.Args[1])
    if err != nil { panic(err) }
    io.Copy(os.Stdout, response.Body)
}
"""
JAVA_PAGE = """public class Page {
    public static void main(String[] words) throws Exception {
        new java.net.URL(words[0]).openStream().transferTo(System.out);
    }
}
"""


def make_files(folder, page):
    """The page, also in a wheel and in a package of npm, which are not compressed; the programs of Go and Java."""
    pathlib.Path(folder, "page.txt").write_text(page)
    with zipfile.ZipFile(f"{folder}/it-1.0-py3-none-any.whl", "w") as wheel:
        wheel.writestr("page.txt", page)
        wheel.writestr("it-1.0.dist-info/METADATA", "Metadata-Version: 2.1\nName: it\nVersion: 1.0\n")
        wheel.writestr("it-1.0.dist-info/WHEEL", "Wheel-Version: 1.0\nRoot-Is-Purelib: true\nTag: py3-none-any\n")
        wheel.writestr("it-1.0.dist-info/RECORD", "")
    with tarfile.open(f"{folder}/it-1.0.0.tgz", "w:gz") as package:
        for name, text in (("page.txt", page), ("package.json", '{"name": "it", "version": "1.0.0"}')):
            entry = tarfile.TarInfo(f"package/{name}")
            entry.size = len(text)
            package.addfile(entry, io.BytesIO(text.encode()))
    pathlib.Path(folder, "Page.java").write_text(JAVA_PAGE)
    pathlib.Path(folder, "page.go").write_text(GO_PAGE)
    if shutil.which("go"):
        support.run("env", f"GOCACHE={folder}/go", "GO111MODULE=off", "go", "build", "-o", f"{folder}/page",
                    f"{folder}/page.go", timeout=10 * TIMEOUT)


def written(out):
    """The texts of the files at or below a place, which are gone then."""
    files = [out] if out.is_file() else [file for file in out.rglob("*") if file.is_file()]
    texts = "".join(file.read_text("latin-1") for file in files)
    shutil.rmtree(out, ignore_errors=True)
    out.unlink(missing_ok=True)
    return texts


def check_programs():
    """Programs that know a proxy get a page by it from a name whose IPv6 address refuses."""
    page, missing = "".join(f"line {number}\n" for number in range(50_000)), []
    with tempfile.TemporaryDirectory() as folder, Proxy() as proxy:
        make_files(folder, page)
        out = pathlib.Path(folder, "out")
        with support.web_server(folder) as port, support.web_server(folder, own_tls(folder)) as tls:
            values = {"AT": f"{FOUR}:{proxy.port}", "PORT": str(port), "TLS": str(tls), "OUT": str(out), "FOUR": FOUR,
                      "PROXY": str(proxy.port), "FOLDER": folder}
            for name, line in PROGRAMS.items():
                words = [re.sub(r"\b(%s)\b" % "|".join(values), lambda found: values[found[0]], word)
                         for word in line.split(" ")]
                words = [word.replace("\t", " ") for word in words]
                program = next(word for word in words if word != "env" and not re.match(r"\w+=", word))
                has_all = "requests" not in line or not support.run(program, "-c", "import requests").returncode
                if not shutil.which(program) or not has_all:
                    missing.append(name)
                    continue
                before = len(proxy.lines())
                done = support.run(*words, timeout=3 * TIMEOUT)
                got = done.stdout + written(out)
                must(page in got, f"{name}: {len(got)} bytes, {done.stderr[-300:]!r}")
                must(comes(lambda: len(proxy.lines()) > before, SOON), f"{name}: not by the proxy", proxy.said()[-300:])
    if missing:
        print(f"{', '.join(missing)}: not tried, not installed", flush=True)


def check_resolves_itself():
    """curl by socks5:// looks up the name itself, and asks for its first address alone: no race helps it."""
    needs("curl")
    with tempfile.TemporaryDirectory() as folder, Proxy() as proxy, support.web_server(folder) as port:
        done = support.run("curl", "-sS", "--noproxy", ",", "--proxy", f"socks5://{FOUR}:{proxy.port}",
                           f"http://both.test:{port}/", timeout=TIMEOUT)
        must(comes(lambda: proxy.lines(), SOON), proxy.said())
        must(done.returncode and " host=2001:db8:1e::1 " in proxy.lines()[0], done, proxy.lines())


def check_node():
    """The fetch of a node that knows no proxy goes past it."""
    needs("node")
    code = "fetch(process.argv[1]).then(async (r) => process.stdout.write(await r.text()))"
    with tempfile.TemporaryDirectory() as folder, Proxy() as proxy, support.web_server(folder) as port:
        pathlib.Path(folder, "page.txt").write_text("page\n")
        at = f"http_proxy=http://{FOUR}:{proxy.port}"
        done = support.run("env", at, "node", "-e", code, f"http://four.test:{port}/page.txt", timeout=TIMEOUT)
        must(done.stdout == "page\n" and not proxy.lines(), done, proxy.said())


class Firefox:
    """A Firefox of its own with these settings, whose pages are loaded by Marionette, its interface for tests."""

    def __init__(self, folder, settings):
        port = unused_port()
        settings = {**settings, "marionette.port": port, "network.captive-portal-service.enabled": False,
                    "datareporting.policy.dataSubmissionEnabled": False}
        lines = (f'user_pref("{name}", {json.dumps(value)});\n' for name, value in settings.items())
        pathlib.Path(folder).mkdir()
        pathlib.Path(folder, "user.js").write_text("".join(lines))
        self.running = subprocess.Popen(["firefox", "--headless", "--marionette", "--profile", folder, "about:blank"],
                                        env={"HOME": folder, "PATH": "/usr/bin:/bin"}, stdin=subprocess.DEVNULL,
                                        stdout=subprocess.DEVNULL, stderr=subprocess.DEVNULL)
        self.came = self.talk = None
        must(comes(lambda: self.connect(port), 3 * TIMEOUT), "Firefox does not listen")
        self.read()
        self.ask("WebDriver:NewSession", acceptInsecureCerts=True)

    def __enter__(self):
        return self

    def __exit__(self, *_):
        if self.talk:
            self.talk.close()
        self.running.kill()
        self.running.wait()

    def connect(self, port):
        with contextlib.suppress(OSError):
            self.talk = socket.create_connection((FOUR, port), timeout=3 * TIMEOUT)
            self.came = self.talk.makefile("rb")
        return bool(self.talk)

    def read(self):
        """A message: its length, a colon, and JSON."""
        length = b"".join(iter(lambda: self.came.read(1), b":"))
        return json.loads(self.came.read(int(length)))

    def ask(self, name, **given):
        text = json.dumps([0, 1, name, given]).encode()
        self.talk.sendall(b"%d:%s" % (len(text), text))
        _, _, fault, result = self.read()
        must(not fault, name, fault)
        return result

    def page(self, url):
        """The text of a page."""
        self.ask("WebDriver:Navigate", url=url)
        return self.ask("WebDriver:ExecuteScript", script="return document.body.textContent", args=[])["value"]


def check_firefox():
    """Firefox gets a page, which it asks the proxy for, by SOCKS 5 and by HTTP, without TLS and with it."""
    needs("firefox")
    with tempfile.TemporaryDirectory() as folder, Proxy() as proxy, support.web_server(folder) as port, \
            support.web_server(folder, own_tls(folder)) as tls:
        pathlib.Path(folder, "page.txt").write_text("page\n")
        common = {"network.proxy.type": 1, "network.proxy.no_proxies_on": ""}
        by_socks = {"network.proxy.socks": FOUR, "network.proxy.socks_port": proxy.port,
                    "network.proxy.socks_remote_dns": True}
        by_http = {"network.proxy.http": FOUR, "network.proxy.http_port": proxy.port,
                   "network.proxy.ssl": FOUR, "network.proxy.ssl_port": proxy.port}
        for way, settings in (("socks", by_socks), ("http", by_http)):
            before = len(proxy.lines())
            with Firefox(f"{folder}/{way}", {**common, **settings}) as firefox:
                for scheme, at in (("http", port), ("https", tls)):
                    got = firefox.page(f"{scheme}://both.test:{at}/page.txt")
                    must(got == "page\n", way, scheme, got, proxy.said()[-300:])
            for at in (port, tls):  # (it keeps its connections until it ends)
                is_seen = lambda: any(f" host=both.test port={at} " in line for line in proxy.lines()[before:])
                must(comes(is_seen, SOON), way, at, "not by the proxy", proxy.said()[-300:])


GIT = """
set -e
git init -q work && cd work && echo hello > file && git add file
git -c user.name=a -c user.email=a@b commit -qm one && cd ..
git clone -q --bare work it.git && cd it.git && git update-server-info
"""


def check_git():
    """git clones over the proxy, by SOCKS 5 and by HTTP, without TLS and with it."""
    needs("git")
    with tempfile.TemporaryDirectory() as folder, Proxy() as proxy, support.web_server(folder) as port, \
            support.web_server(folder, own_tls(folder)) as tls:
        made = support.run("sh", "-c", GIT, cwd=folder)
        if made.returncode:
            raise NotTried(f"git: {made.stderr.strip()}")
        for way in ("socks5h", "http"):
            for scheme, at in (("http", port), ("https", tls)):
                to = pathlib.Path(folder, f"{way}-{scheme}")
                done = support.run("env", f"GIT_SSL_CAINFO={folder}/certificate", "git", "-c",
                                   f"http.proxy={way}://{FOUR}:{proxy.port}", "clone", "-q",
                                   f"{scheme}://both.test:{at}/it.git", to, timeout=TIMEOUT)
                file = to / "file"
                must(file.exists() and file.read_text() == "hello\n", way, scheme, repr(done.stderr))


def check_nc():
    """nc goes through by SOCKS 5, as a ProxyCommand of ssh has it."""
    needs("nc")
    with Proxy() as proxy, serving(greet) as port:
        done = support.run("nc", "-X", "5", "-x", f"{FOUR}:{proxy.port}", "four.test", port, input="", timeout=TIMEOUT)
    if "invalid option" in done.stderr or "usage" in done.stderr.lower():
        raise NotTried("nc has no -X")
    must(done.stdout == "hello\n", f"{done.stdout!r}, {done.stderr!r}")


def check_ssh():
    """Through nc and the proxy."""
    needs("nc")
    with Proxy() as proxy:
        support.must_log_in(f"nc -X 5 -x {FOUR}:{proxy.port}")
