"""Tries what `make install` puts where: below DESTDIR, with spaces in PREFIX, by copying alone; and that make is quiet
where its reader goes away.
"""
import os

from support import OPTIONS, ROOT, run, tell

FILES = ["bin/he", "share/man/man1/he.1", "share/bash-completion/completions/he", "share/zsh/site-functions/_he",
         "share/fish/vendor_completions.d/he.fish", "share/doc/he/JSON.md", "share/doc/he/LICENSE"]


def check_files():
    """No command rt is called, which would build."""
    folder, to = OPTIONS.folder, OPTIONS.folder / "to"
    (folder / "rt").write_text('#!/bin/sh\necho "rt was called: $*" >&2\nexit 1\n')
    (folder / "rt").chmod(0o755)
    path = {**os.environ, "PATH": f"{folder}:{os.environ['PATH']}"}
    prefixes = ["usr", "opt/my tools"]
    for prefix in prefixes:
        done = run("make", "-s", "install", f"HE={OPTIONS.program}", f"DESTDIR={to}", f"PREFIX=/{prefix}", cwd=ROOT,
                   env=path)
        tell(done.returncode == 0, prefix, done.stdout, done.stderr)
        own = to / prefix / "bin/he"
        tell(run("cmp", OPTIONS.program, own).returncode == 0, f"{own} is another program")
        tell(own.stat().st_mode & 0o777 == 0o755, f"{own} cannot be run by all")
    found = {str(file.relative_to(to)) for file in to.rglob("*") if file.is_file() and file.stat().st_size}
    wanted = {f"{prefix}/{file}" for prefix in prefixes for file in FILES}
    tell(found == wanted, "other files than should be:", *(found ^ wanted))


def check_quiet():
    for target in ("", "help"):
        said = run("sh", "-c", f"{{ make {target} | head -n 1 > /dev/null; }} 2>&1", cwd=ROOT).stdout
        tell(not said, f"make {target} | head: {said}")
