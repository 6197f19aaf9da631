"""Three servers behind HAProxy or nginx, each in a network namespace of its own: one is killed under load, another is ended in order; what does a client see?

usage: proxies.py [--rate R] EDGE LOAD GUESTS      (as root: `ip netns`; 1,000 a second; 12 s for each line)

All is bounded to namespaces that it makes and removes. After 3 s the second server is killed, after 6 s it is there again; after 8 s the
third is ended by SIGTERM, after 9.5 s it is there again. A proxy that `retries` gives a request to another server where one ended without
an answer, or answered 503: work functions keep nothing, so twice is as good as once. Prints a line for each proxy; ends with 1 where one
that retries lost an answer, or gave another than 200.
"""
import os
import pathlib
import re
import shutil
import subprocess
import sys
import time

import common

told = common.words(rate=1000)
ROOM = common.room()
FRONT, BACKS = f"edge{os.getpid()}p", [f"edge{os.getpid()}s{n}" for n in (1, 2, 3)]
ADDRESSES = [f"10.77.0.{10 + n}" for n in (1, 2, 3)]

HAPROXY = """global
    maxconn 4096
defaults
    mode http
    timeout connect 300ms
    timeout client 60s
    timeout server 5s
    timeout http-keep-alive 60s
    @RETRIES@
frontend all
    bind 127.0.0.1:8080
    http-request deny deny_status 404 if { path_beg /-/ }
    default_backend edge
backend edge
    balance leastconn
    option httpchk GET /-/metrics
    default-server check inter 200ms fall 1 rise 1
@SERVERS@
"""
NGINX = """daemon off;
worker_processes 2;
pid @ROOM@/nginx.pid;
error_log @ROOM@/error.log crit;
events { worker_connections 1024; }
http {
    access_log off;
    client_body_temp_path @ROOM@/body;
    proxy_temp_path @ROOM@/proxy;
    keepalive_requests 1000000000;
    upstream edge {
@SERVERS@
        keepalive 64;
    }
    server {
        listen 127.0.0.1:8080;
        client_max_body_size 64k;
        location /-/ { return 404; }
        location / {
            proxy_pass http://edge;
            proxy_http_version 1.1;
            proxy_set_header Connection "";
            proxy_connect_timeout 300ms;
            proxy_read_timeout 5s;
            @RETRIES@
        }
    }
}
"""


def ip(*words: str) -> None:
    subprocess.run(["ip", *words], check=True)


def inside(name: str, *words: str | pathlib.Path, stdout: int = subprocess.DEVNULL) -> subprocess.Popen[str]:
    return subprocess.Popen(["ip", "netns", "exec", name, *words], stdout=stdout, stderr=subprocess.DEVNULL, text=True)


def build_net() -> None:
    for name in (FRONT, *BACKS):
        ip("netns", "add", name)
        ip("-n", name, "link", "set", "lo", "up")
    ip("-n", FRONT, "link", "add", "bridge0", "type", "bridge")
    ip("-n", FRONT, "addr", "add", "10.77.0.1/24", "dev", "bridge0")
    ip("-n", FRONT, "link", "set", "bridge0", "up")
    for n, name in enumerate(BACKS):
        ip("-n", FRONT, "link", "add", f"veth{n}", "type", "veth", "peer", "name", "eth0", "netns", name)
        ip("-n", FRONT, "link", "set", f"veth{n}", "master", "bridge0", "up")
        ip("-n", name, "addr", "add", f"{ADDRESSES[n]}/24", "dev", "eth0")
        ip("-n", name, "link", "set", "eth0", "up")


def start_server(n: int) -> subprocess.Popen[str]:
    return inside(BACKS[n], told.edge, "-a", ADDRESSES[n], "-p", "8080", "-w", "2", ROOM / "tenants")


def end(process: subprocess.Popen[str], how: str) -> None:
    """ip netns exec becomes the program itself."""
    getattr(process, how)()
    process.wait()


def proxy(name: str, retries: bool) -> subprocess.Popen[str]:
    if name == "haproxy":
        servers = "\n".join(f"    server s{n} {it}:8080" for n, it in enumerate(ADDRESSES))
        text = HAPROXY.replace("@RETRIES@", "retries 3\n    option redispatch\n    retry-on conn-failure empty-response 503" if retries else "retries 0")
    else:
        servers = "\n".join(f"        server {it}:8080 max_fails=1 fail_timeout=1s;" for it in ADDRESSES)
        text = NGINX.replace("@RETRIES@", f"proxy_next_upstream {'error timeout http_503 non_idempotent' if retries else 'off'};")
    path = ROOM / f"{name}.conf"
    path.write_text(text.replace("@SERVERS@", servers).replace("@ROOM@", str(ROOM)))
    command: list[str | pathlib.Path] = ["haproxy", "-db", "-f", path] if name == "haproxy" else ["nginx", "-p", ROOM, "-c", path]
    return inside(FRONT, *command)


def try_one(name: str, retries: bool) -> bool:
    servers = [start_server(n) for n in range(3)]
    front = proxy(name, retries)
    time.sleep(1.5)
    load = inside(FRONT, told.load, "-c", "64", "-d", "12", "-r", str(told.rate), "8080", "/hello", stdout=subprocess.PIPE)
    for wait, n, how in ((3, 1, "kill"), (3, 1, None), (2, 2, "terminate"), (1.5, 2, None)):
        time.sleep(wait)
        if how:
            end(servers[n], how)
        else:
            servers[n] = start_server(n)
    said = load.communicate()[0].strip()
    print(f"{name}, {'retries' if retries else 'as it comes'}: {said}", flush=True)
    for it in (front, *servers):
        end(it, "terminate")
    return re.search(r"lost 0 strays 0 .* status 200 \d+$" if retries else "^asked", said) is not None


def main() -> None:
    shutil.copytree(told.guests, ROOM / "tenants")
    (ROOM / "tenants/hello.conf").write_text("deadline 30000\n")  # a busy machine is no failure
    good = True
    try:
        build_net()
        for name in "haproxy", "nginx":
            if not shutil.which(name):
                print(f"left out: {name} is not there")
                continue
            for retries in True, False:
                good = try_one(name, retries) and good
    finally:
        for name in (FRONT, *BACKS):
            subprocess.run(["ip", "netns", "del", name], check=False)
        shutil.rmtree(ROOM)
    sys.exit(0 if good else 1)


main()
