"""A model of the queue with which tools/generate aims: which numbers wait and are missing, and the instants at which
something becomes due. It has no say in what is right: a wrong model only aims badly, and the coverage shows it."""

import math
import struct
from fractions import Fraction
from functools import lru_cache


LEAST_RESEND = 10**6    # nanoseconds: the floor under the delay from an estimate
FIRST_CYCLE = 1


def extended(reference, low, bits):
    cycle = 1 << bits
    base = reference - reference % cycle + low
    return min((base, base - cycle, base + cycle), key=lambda n: abs(reference - n) if n >= 0 else cycle * cycle)


def seconds(nanoseconds):
    whole, rest = divmod(abs(nanoseconds), 10**9)
    return float(whole) + rest / 1e9 if nanoseconds >= 0 else -float(whole) + -rest / 1e9


def nanoseconds(value):
    return round(Fraction(value) * 10**9)


@lru_cache(maxsize=1 << 12)
def resend_after(srtt, variation):
    return max(LEAST_RESEND, nanoseconds(seconds(srtt) + seconds(variation) * 1.5))


def f32(value):
    return struct.unpack("f", struct.pack("f", value))[0]


ALPHA = f32(0.01)


def loss_after(loss, lost):
    """005: the running loss after one more packet."""
    return f32((ALPHA if lost else 0.0) + f32(f32(1.0 - ALPHA) * loss))


@lru_cache(maxsize=1 << 12)
def ten_thousandths(loss):
    """02, point 7: k of a loss."""
    return min(9900, max(10, math.ceil(Fraction(loss) * 10**4)))


def attempts(k, target, most):
    """02, point 7: n."""
    return next((n for n in range(1, most) if k**n <= (10**4 - target) * 10**(4 * n - 4)), most)


class Model:
    def __init__(self, settings):
        self.__dict__.update(settings)
        self.clock, self.last, self.returned, self.rtt = 0, None, None, None
        self.jitter, self.loss = 0.0, 0.0    # kept in mode 2 alone
        self.entries = []       # (extended number, extended timestamp), ascending
        self.gaps = {}          # extended number: [instant detected, last NACK, count], ascending
        self.remembered = {}    # extended number: NACK instant, oldest first

    def number(self, low):
        return extended(self.last[2], low, 16) if self.last else (FIRST_CYCLE << 16) + low

    def timestamp(self, low):
        return extended(self.last[1], low, 32) if self.last else (FIRST_CYCLE << 32) + low

    def late(self, number):
        return self.mode != 0 and self.returned is not None and number <= self.returned

    def media(self, now, low, timestamp):
        number, timestamp = self.number(low), self.timestamp(timestamp)
        highest = self.last[2] if self.last else None
        step = number - highest if self.last else 1
        if 2 <= step <= 1000 and len(self.gaps) + step - 1 > self.max_gaps:
            return
        self.clock = now
        self.arrived(now, timestamp)
        if step <= 0 and (self.late(number) or number not in self.gaps):
            return
        if step > 0:
            self.last = (now, timestamp, number)
            if step > 1000:
                self.gaps.clear()
            for missing in range(number - step + 1, number) if step <= 1000 else ():
                self.gaps[missing] = [now, None, 0]
        self.gaps.pop(number, None)
        self.insert(number, timestamp)
        self.record(False)
        if len(self.entries) > self.depth:
            self.returned = self.entries.pop(0)[0]
            self.drain()

    def arrived(self, now, timestamp):
        """004: a sample of the jitter."""
        if self.mode != 2 or self.last is None or timestamp == self.last[1]:
            return
        rate = float(self.clock_rate)
        received, sent = seconds(now - self.last[0]) * rate, float(timestamp) - float(self.last[1])
        d = abs(received - sent)
        if received >= 1e-8 and sent >= 1e-8 and d <= rate:
            self.jitter += (d - self.jitter) / (16.0 if d > self.jitter else 64.0)

    def record(self, lost, times=1):
        if self.mode == 2:
            for _ in range(times):
                self.loss = loss_after(self.loss, lost)

    def insert(self, number, timestamp):
        at = len(self.entries)
        while at and self.entries[at - 1][0] > number:
            at -= 1
        self.entries.insert(at, (number, timestamp))

    def drain(self):
        """Takes the gaps below the last returned number."""
        below = []
        for number in self.gaps:
            if number >= self.returned:
                break
            below.append(number)
        return [(number, self.gaps.pop(number)) for number in below]

    def sample(self, value):
        if self.rtt is None:
            self.rtt = (value, value // 2)
        else:
            srtt, variation = self.rtt
            self.rtt = (srtt * 7 // 8 + value // 8, variation * 3 // 4 + abs(srtt - value) // 4)

    def repair(self, now, low, timestamp):
        if not self.rtx or self.last is None:
            return
        number = self.number(low)
        if self.late(number):
            self.clock = now
            if number in self.remembered:
                self.sample(now - self.remembered.pop(number))
        elif number not in self.gaps:
            self.clock = now
        elif len(self.entries) < 2 * self.depth:
            self.clock = now
            _, nacked, count = self.gaps.pop(number)
            if count == 1:
                self.sample(now - nacked)
            self.record(True)
            self.insert(number, self.timestamp(timestamp))

    def delay_now(self):
        """The delay as it is: 003's `target_delay`."""
        if self.mode != 2:
            return self.delay
        delay = nanoseconds(seconds(nanoseconds(self.jitter / float(self.clock_rate))) * 2.5)
        if self.rtt:
            delay = max(delay, 2 * self.resend_delay() * attempts(ten_thousandths(self.loss), self.target, self.max))
        return min(self.max_delay, max(self.min, delay))

    def limit(self, now, delay=None):
        instant, timestamp, _ = self.last
        delay = self.delay_now() if delay is None else delay
        return timestamp + int(seconds(now - delay - instant) * float(self.clock_rate))

    def ready(self, now):
        return self.entries and (self.mode == 0 or self.limit(now) >= self.entries[0][1])

    def lose(self):
        for number in list(self.gaps):
            if self.mode != 0 or self.gaps[number][2] < self.max:
                break
            del self.gaps[number]

    def poll(self, now):
        self.clock = now
        self.lose()
        if not self.ready(now):
            return
        self.returned = self.entries.pop(0)[0]
        if self.mode != 0:
            below = self.drain()
            self.record(True, len(below))
            for number, (_, nacked, count) in below:
                if self.rtx and count == 1:
                    self.remembered[number] = nacked
                    if len(self.remembered) > 1024:
                        del self.remembered[next(iter(self.remembered))]

    def resend_delay(self):
        return resend_after(*self.rtt) if self.rtt else self.resend

    def due(self, gap):
        detected, nacked, count = gap
        return nacked + self.resend_delay() if count else detected + self.initial

    def poll_nack(self, now):
        self.clock = now
        self.lose()
        for gap in self.gaps.values():
            if self.due(gap) <= now:
                gap[1], gap[2] = now, gap[2] + 1

    def nacks_at(self, now):
        """Whether `poll_nack` would list a number: the leading ones that it gives up first are not listed."""
        kept = list(self.gaps.values())
        while self.mode == 0 and kept and kept[0][2] >= self.max:
            kept.pop(0)
        return any(self.due(gap) <= now for gap in kept)

    # Instants to aim at

    def due_instants(self):
        """When the first, the last and the next missing numbers become due."""
        some = list(self.gaps.values())
        if len(some) > 20:
            some = some[:10] + some[-10:]
        return sorted({self.due(gap) for gap in some})

    def hand_out_instant(self):
        """The first instant at which `poll` hands out the front entry, in sorted mode."""
        if self.mode == 0 or not self.entries:
            return None
        low, high, delay = 0, 2**52, self.delay_now()
        while low < high:
            middle = (low + high) // 2
            if self.limit(middle, delay) >= self.entries[0][1]:
                high = middle
            else:
                low = middle + 1
        return low

    def tick_instant(self):
        """The instant that the front's timestamp stands for, reckoned in whole numbers."""
        if self.mode == 0 or not self.entries:
            return None
        ticks = self.entries[0][1] - self.last[1]
        return self.last[0] + self.delay_now() + ticks * 10**9 // self.clock_rate
