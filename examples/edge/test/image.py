"""Makes the image of ../Containerfile where there is no container's tool, and asks it: image.py GUESTS [FOLDER]

FROM debian:12-slim is a root of Debian 12 by mmdebstrap, which is kept in FOLDER; RUN is a command in a copy of it; FROM scratch is an empty folder. The
ENTRYPOINT then runs as its USER on a root that cannot be written, in namespaces of its own, with GUESTS as its tenants. It takes root, mmdebstrap, a mirror of
Debian and a minute.
"""

import fcntl
import http.client
import json
import os
import pathlib
import re
import shutil
import signal
import socket
import struct
import subprocess
import sys
import tempfile
import time

HERE = pathlib.Path(__file__).resolve().parent
TOP = HERE.parent.parent.parent
NOTHING: dict[str, str] = {}


def run(*words: str | pathlib.Path) -> None:
    subprocess.run([str(word) for word in words], check=True)


def debian(root: pathlib.Path, *packages: str) -> None:
    """debian:12-slim, as far as a build needs it, and packages more."""
    if (root / "whole").exists():
        return
    shutil.rmtree(root, ignore_errors=True)
    mirror = subprocess.run([TOP / "tools/debian_mirror.sh"], capture_output=True, text=True, check=True).stdout.strip()
    run("mmdebstrap", "--quiet", "--variant=minbase", *(f"--include={it}" for it in packages), "bookworm", root, mirror)
    shutil.copy("/etc/resolv.conf", root / "etc/resolv.conf")
    (root / "whole").touch()


def copied(root: pathlib.Path, context: pathlib.Path, words: list[str]) -> None:
    """COPY: a folder's contents, or a file."""
    *sources, target = words
    for source in sources:
        at, to = context / source.lstrip("/"), root / target.lstrip("/")
        to.parent.mkdir(parents=True, exist_ok=True)
        if at.is_dir():
            shutil.copytree(at, to, symlinks=True, dirs_exist_ok=True)
        else:
            if target.endswith("/"):
                to.mkdir(parents=True, exist_ok=True)
            shutil.copy(at, to)


def build(kept: pathlib.Path, built: pathlib.Path, image: pathlib.Path) -> dict[str, str]:
    """Follows the Containerfile. Returns what it says of the image: USER and ENTRYPOINT."""
    stages, root, said = dict[str, pathlib.Path](), image, dict[str, str]()
    for line in (HERE.parent / "Containerfile").read_text().splitlines():
        word, _, rest = line.partition(" ")
        if word == "FROM":
            base, _, name = rest.partition(" AS ")
            root = built if base != "scratch" else image
            stages[name] = root
            if base != "scratch":
                debian(kept)
                run("cp", "-a", kept, root)
        elif word == "RUN":
            run("chroot", root, "/bin/sh", "-e", "-c", rest)
        elif word == "COPY":
            stage = re.match(r"--from=(\w+) ", rest)
            copied(root, stages[stage[1]] if stage else TOP, rest.split()[1 if stage else 0:])
        elif word in ("USER", "ENTRYPOINT"):
            said[word] = rest
        elif word and word not in ("#", "EXPOSE", "STOPSIGNAL"):
            sys.exit(f"image.py knows no {word}")
    return said


def ask(path: str, body: bytes | None = None) -> tuple[int, bytes]:
    link = http.client.HTTPConnection("127.0.0.1", 8080, timeout=60)
    link.request("POST" if body else "GET", path, body)
    answer = link.getresponse()
    return answer.status, answer.read()


def inside(root: str, guests: str, user: str, entry: str) -> None:
    """In namespaces of its own: it starts the image, asks it, and ends it."""
    control = socket.socket(socket.AF_INET, socket.SOCK_DGRAM)
    fcntl.ioctl(control, 0x8914, struct.pack("16sh", b"lo", 1))         # SIOCSIFFLAGS: lo is up
    run("mount", "--bind", root, root)
    run("mount", "--bind", guests, f"{root}/tenants")
    run("mount", "-o", "remount,bind,ro", root)
    words = ["setpriv", "--no-new-privs", "--bounding-set=-all,+sys_chroot,+setuid,+setgid"]
    words += [shutil.which("chroot") or "chroot", f"--userspec={user}", "--groups=", root, *json.loads(entry)]
    server = subprocess.Popen(words, stdout=subprocess.PIPE, text=True, env=NOTHING)
    while server.poll() is None:
        try:
            assert ask("/-/health") == (200, b"ok\n")
            break
        except OSError:
            time.sleep(0.1)
    status = pathlib.Path(f"/proc/{server.pid}/status").read_text()
    assert re.search(r"^Uid:\s+65534\s+65534", status, re.M) and re.search(r"^CapEff:\s+0+$", status, re.M), status
    assert ask("/hello", b"you") == (200, b"hello, you"), ask("/hello", b"you")
    assert ask("/trap/0", b"x")[0] == 500 and ask("/none", b"x")[0] == 404
    server.send_signal(signal.SIGTERM)
    log = server.communicate(timeout=60)[0]
    assert server.returncode == 0 and "path=\"/hello\" status=200" in log, (server.returncode, log)


def main() -> None:
    if sys.argv[1] == "inside":
        inside(*sys.argv[2:])
        return
    with tempfile.TemporaryDirectory() as room:
        kept, image = pathlib.Path(sys.argv[2] if len(sys.argv) > 2 else f"{room}/debian"), pathlib.Path(room) / "image"
        image.mkdir()
        os.chmod(room, 0o755)
        said = build(kept, pathlib.Path(room) / "build", image)
        files = sorted(str(it.relative_to(image)) for it in image.rglob("*"))
        own = ("unshare", "--net", "--mount", "--pid", "--fork", "--mount-proc")
        run(*own, sys.executable, __file__, "inside", image, sys.argv[1], said["USER"], said["ENTRYPOINT"])
        print(f"the image has {', '.join(files)}, {(image / 'edge').stat().st_size} bytes, and answers")


if __name__ == "__main__":
    main()
