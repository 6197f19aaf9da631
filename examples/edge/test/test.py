"""Tests the server: responses and limits, hostile tenants, a loop, modules that change, shutdown, and hostile clients.

usage: test.py EDGE GUESTS PART..     EDGE: the program; GUESTS: a folder of modules; PART: functions, bounds, starts, end, operators, listeners,
networks (as root, in a namespace of its own), logs, page (by chromium), python, forms (of requests), strict (by h11), twisted, h11 and llhttp (the requests of
their tests; LLHTTP names the folder of llhttp's sources), attacks (by slowhttptest), clients, hostile (LOAD names the program of bench/load.c), or a
number, which is the same as clients with that many connections that only stand (else 1,000)
"""
import resource
import sys
from collections.abc import Callable

import bounds
import clients
import functions
import hostile
import listeners
import logs
import operators
import others
import server

PARTS: dict[str, Callable[[], None]] = {
    "functions": functions.functions, "bounds": bounds.bounds, "starts": bounds.starts, "end": operators.end, "operators": operators.operators,
    "listeners": listeners.listeners, "networks": listeners.networks, "logs": logs.logs, "page": others.page, "python": others.python,
    "forms": others.forms, "strict": others.strict, "twisted": others.twisted, "h11": others.h11, "llhttp": others.llhttp, "attacks": clients.attacks,
    "clients": clients.clients, "hostile": hostile.hostile}


def main() -> int:
    resource.setrlimit(resource.RLIMIT_NOFILE, (resource.getrlimit(resource.RLIMIT_NOFILE)[1],) * 2)
    for word in sys.argv[3:]:
        if word.isdigit():
            clients.clients(int(word))
        else:
            PARTS[word]()
    print(f"test: {len(server.made)} checks, {len(server.bad)} failed")
    return 1 if server.bad else 0


if __name__ == "__main__":
    sys.exit(main())
