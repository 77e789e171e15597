#!/usr/bin/env python3
"""Send voice over a path that changes: delay, jitter and loss by phases. What a receiver NACKs (RFC 4585) is sent again as a repair (RFC 4588),
over the same path, so that NACKs and repairs take their time too.

usage: tools/changing_path.py HOST:PORT [SECONDS DELAY JITTER LOSS] ..

Each four are a phase: for how many seconds, how many ms one way at least, up to how many ms more at random, and how many of a hundred media
packets are lost. Without them: 12 s of 40 ms, 12 s of 10 ms, 12 s of 10 to 160 ms, 12 s of 10 ms, always 4 of a hundred lost. Payload type 0,
SSRC 42, 20 ms packets; repairs have payload type 99 and SSRC 44.
"""

import heapq
import random
import select
import socket
import struct
import sys
import time

sys.dont_write_bytecode = True
from traces import datagram, repair_payload

PHASES = [(12, 40, 1, 4), (12, 10, 1, 4), (12, 10, 150, 4), (12, 10, 1, 4)]
PACKET = 0.02


def nacked(data):
    """The numbers that the generic NACKs of an RTCP datagram name."""
    while len(data) >= 4:
        first, kind, words = struct.unpack_from(">BBH", data)
        if (first & 31, kind) == (1, 205):
            for place in range(12, 4 * words + 4, 4):
                number, mask = struct.unpack_from(">HH", data, place)
                yield number
                yield from ((number + 1 + bit) % 2**16 for bit in range(16) if mask >> bit & 1)
        data = data[4 * words + 4:]


class Path:
    """Both ways of a path: what goes in comes out later, at the instant that its phase says."""

    def __init__(self, address, phases=PHASES, seed=1):
        self.socket = socket.socket(socket.AF_INET, socket.SOCK_DGRAM)
        self.socket.bind(("127.0.0.1", 0))
        self.address, self.phases, self.random = address, phases, random.Random(seed)
        self.under_way, self.counted = [], 0    # (when, count, what, bytes)
        self.sent, self.lost, self.repairs = 0, 0, 0

    def phase(self, at):
        for seconds, *rest in self.phases:
            if at < seconds:
                return rest
            at -= seconds
        return None

    def put(self, at, what, data):
        delay, jitter, _ = self.phase(at) or self.phases[-1][1:]
        self.counted += 1
        when = at + (delay + self.random.uniform(0, jitter)) / 1000
        heapq.heappush(self.under_way, (when, self.counted, what, data))

    def packet(self, at):
        index = self.sent
        self.sent += 1
        if index and self.random.uniform(0, 100) < self.phase(at)[2]:
            self.lost += 1
        else:
            self.put(at, "out", datagram(0, index % 2**16, 160 * index, 42, index.to_bytes(4, "big") * 40))

    def repair(self, at, number):
        self.repairs += 1
        index = number    # of the first 65,536
        payload = repair_payload(number, index.to_bytes(4, "big") * 40)
        self.put(at, "out", datagram(99, self.repairs % 2**16, 160 * index, 44, payload))

    def run(self):
        start = time.monotonic()
        ends = sum(seconds for seconds, *_ in self.phases)
        while True:
            at = time.monotonic() - start
            while self.sent * PACKET <= at and self.phase(self.sent * PACKET):
                self.packet(self.sent * PACKET)
            while self.under_way and self.under_way[0][0] <= at:
                _, _, what, data = heapq.heappop(self.under_way)
                if what == "out":
                    self.socket.sendto(data, self.address)
                else:
                    for number in nacked(data):
                        self.repair(at, number)
            if at > ends + 1:
                return
            nexts = [self.sent * PACKET] * (at < ends) + [entry[0] for entry in self.under_way[:1]] + [at + 0.1]
            ready, _, _ = select.select([self.socket], [], [], max(0, min(nexts) - at))
            if ready:
                try:
                    self.put(time.monotonic() - start, "back", self.socket.recv(2048))
                except ConnectionError:
                    pass    # nobody listens any more


def main():
    if len(sys.argv) < 2 or len(sys.argv) % 4 != 2 or ":" not in sys.argv[1]:
        sys.exit(__doc__)
    host, port = sys.argv[1].rsplit(":", 1)
    numbers = list(map(float, sys.argv[2:]))
    path = Path((host, int(port)), [tuple(numbers[at:at + 4]) for at in range(0, len(numbers), 4)] or PHASES)
    path.run()
    print(f"{path.sent} packets sent, {path.lost} lost on the way, {path.repairs} repairs sent")


if __name__ == "__main__":
    main()
