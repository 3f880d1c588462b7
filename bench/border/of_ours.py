#!/usr/bin/env python3
"""of_ours.py FILE CREDIT: the same over the package for Python."""
import sys
import time

from wuleshomia import Attached, Endpoint, Ready

PIECE = 4096


def main():
    with open(sys.argv[1], "rb") as file:
        data = file.read()
    credit, used, messages, wrote = int(sys.argv[2]), 0, 0, 0
    endpoint = Endpoint("bench", allowed=1024, max_message=1 << 24, window=1 << 30)
    began = time.process_time()
    for at in range(0, len(data), PIECE):
        for event in endpoint.feed(data[at : at + PIECE]):
            if type(event) is Ready:
                message = endpoint.take(event.channel, event.handle)
                messages += 1
                endpoint.settle(event.channel, message.id)
                used += 1
                if used >= credit // 2:
                    endpoint.grant(event.channel, event.handle, used)
                    used = 0
            elif type(event) is Attached:
                endpoint.grant(event.channel, event.handle, credit)
        wrote += len(endpoint.output())
    seconds = time.process_time() - began
    print(f"messages={messages} wrote={wrote} end={endpoint.finish().name} seconds={seconds:.4f}")


main()
