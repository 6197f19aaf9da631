"""Runs ../edge.socket and ../edge.service in a systemd of their own: unit.py EDGE GUESTS [FOLDER]

A root of Debian 12 with systemd, made by mmdebstrap and kept in FOLDER, gets EDGE as /usr/bin/edge and GUESTS as its tenants. systemd is then the first process
of namespaces. It takes root, mmdebstrap, a mirror of Debian, a hierarchy of cgroup2 that can be written, and a minute.
"""

import contextlib
import http.client
import os
import pathlib
import re
import shutil
import signal
import subprocess
import sys
import tempfile
import threading
import time
from collections.abc import Callable

from image import HERE, debian, run

sys.path.insert(0, str(HERE.parent))
from ports import UnixConnection  # noqa: E402

BOOT = """
mount --make-rprivate /
mount --bind "$1" "$1"
cd "$1"
mount -t proc proc proc
mount -t sysfs sysfs sys
mount -t cgroup2 cgroup2 sys/fs/cgroup
for folder in run dev tmp; do mount -t tmpfs -o mode=755 tmpfs $folder; done
for device in null:3 zero:5 full:7 random:8 urandom:9; do mknod -m 666 dev/${device%:*} c 1 ${device#*:}; done
mknod -m 666 dev/tty c 5 0
mkdir dev/shm dev/pts
mount -t devpts -o newinstance,ptmxmode=0666 devpts dev/pts
ln -s pts/ptmx dev/ptmx
pivot_root . mnt
umount -l /mnt
exec env -i container=unshare PATH=/usr/sbin:/usr/bin /lib/systemd/systemd --unit=multi-user.target < /dev/null > /dev/null 2>&1
"""


class System:
    """A systemd, with its own processes, mounts and control groups, on the network of this process."""

    def __init__(self, root: pathlib.Path) -> None:
        mounted = re.search(r"^\S+ (\S+) cgroup2 ", pathlib.Path("/proc/mounts").read_text(), re.M)
        assert mounted, "there is no cgroup2"
        self.group = pathlib.Path(mounted[1], f"edge-{os.getpid()}")
        self.group.mkdir()
        enter = f'echo $$ > {self.group}/cgroup.procs; exec unshare --mount --pid --fork --uts --ipc --cgroup --kill-child sh -euc "$2" sh "$1"'
        self.outer = subprocess.Popen(["sh", "-euc", enter, "sh", root, BOOT])
        self.pid = ""

    def booted(self) -> bool:
        assert self.outer.poll() is None, "systemd does not begin"
        self.pid = pathlib.Path(f"/proc/{self.outer.pid}/task/{self.outer.pid}/children").read_text().strip()
        return bool(self.pid) and self.ctl("is-system-running").stdout.strip() in ("running", "degraded")

    def inside(self, *words: str) -> subprocess.CompletedProcess[str]:
        enter = ["nsenter", "-t", self.pid, "--mount", "--uts", "--ipc", "--pid", "--cgroup", "--root", "--wd=/"]
        return subprocess.run([*enter, *words], capture_output=True, text=True, check=False, timeout=120)

    def ctl(self, *words: str) -> subprocess.CompletedProcess[str]:
        return self.inside("systemctl", *words)

    def show(self, name: str, unit: str = "edge.service") -> str:
        return self.ctl("show", "--value", "-p", name, unit).stdout.strip()

    def end(self) -> None:
        if self.pid:
            os.kill(int(self.pid), signal.SIGKILL)
        self.outer.kill()  # (unshare waits at SIGTERM)
        self.outer.wait()
        waits("its control groups are empty", self.is_gone)

    def is_gone(self) -> bool:
        for group in [*sorted(self.group.rglob("*/"), reverse=True), self.group]:
            with contextlib.suppress(OSError):
                group.rmdir()
        return not self.group.exists()


def waits(what: str, done: Callable[[], bool]) -> None:
    end = time.monotonic() + 60
    while not done():
        assert time.monotonic() < end, what
        time.sleep(0.1)


def asked(link: http.client.HTTPConnection) -> tuple[int, bytes]:
    with contextlib.closing(link):
        link.request("POST", "/hello", b"you", {"X-Forwarded-For": "2001:db8::5"})
        answer = link.getresponse()
        return answer.status, answer.read()


def links(system: System) -> list[http.client.HTTPConnection]:
    """A client of each socket of edge.socket."""
    return [http.client.HTTPConnection("127.0.0.1", 8080, timeout=60), http.client.HTTPConnection("::1", 8080, timeout=60),
            UnixConnection(f"/proc/{system.pid}/root/run/edge.sock", 60)]


def restarted(system: System) -> int:
    """Three restarts under load: how many requests were sent. One that fails is sent once more; none may fail twice."""
    over, sent, lost = threading.Event(), [0], list[str]()

    def client(which: int) -> None:
        while not over.is_set():
            sent[0] += 1
            for last in False, True:
                try:
                    if asked(links(system)[which]) == (200, b"hello, you"):
                        break
                except (OSError, http.client.HTTPException) as error:
                    lost.extend([repr(error)] if last else [])

    clients = [threading.Thread(target=client, args=(n % 3,)) for n in range(6)]
    for it in clients:
        it.start()
    for _ in range(3):
        time.sleep(0.3)
        assert system.ctl("restart", "edge.service").returncode == 0, system.ctl("status", "edge.service").stdout
    over.set()
    for it in clients:
        it.join()
    assert not lost and sent[0] > 20, (sent, lost[:5])
    return sent[0]


def tried(system: System) -> str:
    """What the units do."""
    assert system.ctl("start", "edge.socket").returncode == 0 and system.show("ActiveState") == "inactive"
    got = [asked(it) for it in links(system)]
    assert got == [(200, b"hello, you")] * 3, got
    assert (system.show("ActiveState"), system.show("SubState")) == ("active", "running")
    first = system.show("MainPID")
    status = system.inside("cat", f"/proc/{first}/status").stdout
    assert re.search(r"^Uid:\s+[1-9]", status, re.M) and re.search(r"^CapEff:\s+0+$", status, re.M) and re.search(r"^Seccomp:\s+2$", status, re.M), status
    assert system.ctl("reload", "edge.service").returncode == 0 and system.show("MainPID") == first
    sent = restarted(system)
    assert system.show("MainPID") != first
    system.ctl("kill", "--signal=KILL", "--kill-whom=main", "edge.service")
    waits("it is started again", lambda: system.show("NRestarts") == "1" and system.show("SubState") == "running")
    assert asked(links(system)[2]) == (200, b"hello, you")
    assert system.ctl("stop", "edge.service").returncode == 0
    assert (system.show("Result"), system.show("ActiveState"), system.show("ActiveState", "edge.socket")) == ("success", "inactive", "active")
    assert asked(links(system)[1]) == (200, b"hello, you")
    journal = system.inside("journalctl", "--no-pager", "-o", "cat", "-u", "edge.service").stdout
    seen, wanting = set(re.findall(r'client=(\S+) forwarded="(\S*)"', journal)), re.findall(r"^edge: .*", journal, re.M)
    assert seen == {("127.0.0.1", ""), ("::1", ""), ("unix:0", "2001:db8::5")} and not wanting, (seen, wanting)
    return f"activation by three sockets, a reload, three restarts with {sent} requests of which none is lost, a kill and a stop"


def inside(root: pathlib.Path) -> None:
    run("ip", "link", "set", "lo", "up")
    system = System(root)
    try:
        waits("systemd is up", system.booted)
        print(f"systemd {system.ctl('--version').stdout.split()[1]} runs the units: {tried(system)}")
    except (AssertionError, OSError, http.client.HTTPException):
        print(system.ctl("status", "--no-pager", "-l", "-n", "20", "edge.socket", "edge.service").stdout, file=sys.stderr)
        raise
    finally:
        system.end()


def main() -> None:
    if sys.argv[1] == "inside":
        inside(pathlib.Path(sys.argv[2]))
        return
    with tempfile.TemporaryDirectory() as room:
        root = pathlib.Path(sys.argv[3] if len(sys.argv) > 3 else f"{room}/debian")
        debian(root, "systemd", "systemd-sysv", "libuv1", "libhttp-parser2.9")
        shutil.rmtree(root / "var/log/journal", ignore_errors=True)
        shutil.copy(sys.argv[1], root / "usr/bin/edge")
        shutil.copytree(sys.argv[2], root / "srv/edge/tenants", dirs_exist_ok=True)
        for name in "edge.socket", "edge.service":
            shutil.copy(HERE.parent / name, root / "etc/systemd/system")
        run("unshare", "--net", sys.executable, __file__, "inside", root)


if __name__ == "__main__":
    signal.signal(signal.SIGTERM, lambda *_: sys.exit(1))
    main()
