"""Drives a loop by itself: real time, and work in the same thread. Prints the values that its callbacks emit. host_asyncio.py does it within asyncio.

usage: first_loop.py FILE
"""

import sys
import time
from wasmloop import ENTERED, FOREVER, RAN, RETURN, Loop, Module

ENDED = "returned", "trapped", "exceeded the call depth", "ran out of fuel"

with Module.open(sys.argv[1]) as module, Loop(module) as loop:
    began = time.monotonic()
    while True:
        loop.clock(int((time.monotonic() - began) * 1000))
        while job := loop.next_job():
            loop.accept(job.run())                  # its work, here or in another thread
        turned = loop.turn()
        if turned.did.what == RAN:                  # a callback emitted values, or did not return
            print(loop.emits())
            if turned.did.ending != RETURN:
                sys.exit(f"a callback {ENDED[turned.did.ending]}, {loop.stop_told()}")
        elif turned.did.what != ENTERED or turned.wait == FOREVER:
            break                                   # it is over, has failed, or waits for a send
        elif turned.wait:
            time.sleep(turned.wait / 1000)
