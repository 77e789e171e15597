"""The profiles of tools/generate: each writes a session, or a few, aimed at some rules of 01."""

import itertools
import random

from aim import Model, attempts, loss_after, ten_thousandths
from traces import DYNAMIC_FIELDS, FIELDS, MAX_INSTANT, datagram, hexed, opening, repair_payload

MS = 10**6
LONGEST = 320


class Writer:
    """Writes calls, and keeps the model of the session beside them."""

    def __init__(self, seed, most_depth=1024, most_gaps=4096):
        self.random = random.Random(seed)
        self.lines, self.calls, self.model = [], 0, None
        self.most_depth, self.most_gaps = most_depth, most_gaps

    def line(self, text, aim=None):
        if aim:
            self.lines.append(f"# aim {aim}")
        self.lines.append(text)
        self.calls += 1

    def chance(self, share):
        return self.random.random() < share

    def pick(self, *choices):
        return self.random.choice(choices)

    # Calls

    def open(self, **given):
        pick, draw = self.pick, self.random.randrange
        settings = dict(
            mode=pick(0, 0, 1, 1, 2), clock_rate=pick(8000, 8000, 16000, 48000, 90000, 1, 1000000, draw(1, 1000001)),
            depth=pick(1, 2, 3, 5, 20, 100, 1024, draw(1, 1025)), max_gaps=pick(999, 999, 1000, 1500, 4096, draw(999, 4097)),
            delay=pick(0, 20 * MS, 100 * MS, 100 * MS, 60000 * MS, draw(200 * MS)),
            initial=pick(0, 5 * MS, 5 * MS, 60000 * MS, draw(10 * MS)), resend=pick(0, 20 * MS, 20 * MS, 60000 * MS, draw(30 * MS)),
            max=pick(1, 2, 3, 3, 255), pt=pick(0, 8, 96, 127), ssrc=draw(2**32),
            rtx=pick(0, 1, 1), rtx_pt=pick(0, 97, 127), rtx_ssrc=draw(2**32))
        settings.update(given)
        settings.update(depth=min(settings["depth"], self.most_depth), max_gaps=min(settings["max_gaps"], self.most_gaps))
        if settings["mode"] == 2:
            shortest = settings["delay"] if "delay" in given else pick(0, 10 * MS, draw(100 * MS))
            longest = pick(shortest, max(shortest, 400 * MS), 60000 * MS)
            settings = dict(dict(min=shortest, max_delay=longest, target=pick(9900, 9999, 0, draw(10000))), **settings)
            settings["max"] = min(settings["max"], 4)
        self.line(opening(settings))
        self.model = Model(settings)

    def payload(self):
        if self.chance(0.02):
            size = self.pick(LONGEST, LONGEST - 1, self.random.randrange(LONGEST))
        else:
            size = self.random.randrange(4)
        return self.random.randbytes(size)

    def extras(self):
        """CSRCs, an extension, padding and the marker, mostly none."""
        if self.chance(0.85):
            return {}
        return dict(marker=self.pick(0, 1), csrcs=self.pick(0, 0, 1, 15), extension=self.pick(None, None, 0, 1, 3),
                    padding=self.pick(0, 0, 1, 4, 255))

    def media_datagram(self, number, timestamp, payload=None):
        m = self.model
        return datagram(m.pt, number % 2**16, timestamp % 2**32, m.ssrc, self.payload() if payload is None else payload, **self.extras())

    def media(self, now, number, timestamp, aim=None, payload=None):
        m = self.model
        self.line(f"media {now} {self.media_datagram(number, timestamp, payload).hex()}", aim)
        if m.clock <= now <= MAX_INSTANT:
            m.media(now, number % 2**16, timestamp % 2**32)

    def burst(self, now, datagrams, aim=None, places=None, after=b"", ends=None):
        """Datagrams in one buffer; `after` stands behind the last of them. The model is the caller's to keep."""
        if ends is None:
            ends = list(itertools.accumulate(map(len, datagrams)))
        places = len(ends) if places is None else places
        self.line(" ".join(map(str, ("burst", now, places, hexed(b"".join(datagrams) + after), *ends))), aim)

    def repair(self, now, number, timestamp, aim=None, payload=None):
        m = self.model
        number, timestamp = number % 2**16, timestamp % 2**32
        payload = repair_payload(number, self.payload() if payload is None else payload)
        data = datagram(m.rtx_pt, self.random.randrange(2**16), timestamp, m.rtx_ssrc, payload, **self.extras())
        self.line(f"repair {now} {data.hex()}", aim)
        if m.clock <= now <= MAX_INSTANT:
            m.repair(now, number, timestamp)

    def poll(self, now, aim=None):
        self.line(f"poll {now}", aim)
        if self.model.clock <= now <= MAX_INSTANT:
            self.model.poll(now)

    def poll_nack(self, now, aim=None):
        """As a list of numbers or, one time in three, as entries on the wire."""
        places = 4 * self.model.max_gaps
        self.line(self.pick(f"poll_nack {now}", f"poll_nack {now}", f"nack_wire {now} {places}"), aim)
        if self.model.clock <= now <= MAX_INSTANT:
            self.model.poll_nack(now)

    def look(self, now):
        """Calls that change nothing; `state` more rarely where it would be long."""
        m = self.model
        if self.chance(0.25):
            self.line(self.pick(f"timeout_receive {now}", f"timeout_nack {now}", "rtx_stats", "highest"))
        size = len(m.entries) + len(m.gaps) + len(m.remembered)
        if self.chance(0.3 if size < 10 else 3 / size):
            self.line("state")

    # Instants

    def later(self):
        """An instant at or after the clock, often one that something hangs on, or a nanosecond beside it."""
        m = self.model
        if self.chance(0.3):
            instants = m.due_instants() + [n for n in (m.hand_out_instant(), m.tick_instant()) if n is not None]
            instants = [n for n in instants if m.clock <= n < min(m.clock + 10**12, MAX_INSTANT)]
            if instants:
                return max(m.clock, self.random.choice(instants) + self.pick(-1, 0, 0, 1))
        step = self.pick(0, 0, 1, self.random.randrange(100), self.random.randrange(5 * MS), self.random.randrange(50 * MS))
        return min(m.clock + step, MAX_INSTANT)

    def nack_at_due(self):
        """`poll_nack` a nanosecond before a missing number is due, then at that instant."""
        m = self.model
        due = [n for n in m.due_instants() if m.clock < n <= MAX_INSTANT]
        if due:
            first = self.random.choice(due) if self.chance(0.2) else due[0]
            self.line(f"timeout_nack {first - 1}")
            self.poll_nack(first - 1, None if m.nacks_at(first - 1) else "NACK a nanosecond before the next is due")
            self.line(f"timeout_nack {first}")
            self.poll_nack(first, "NACK at the instant one is due" if m.nacks_at(first) else "NACK at the instant at which one is lost")

    def poll_at_limit(self):
        """`poll` a nanosecond before the front is handed out, then at that instant."""
        m = self.model
        at = m.hand_out_instant()
        if at is not None and m.clock < at <= MAX_INSTANT:
            self.line(f"timeout_receive {at - 1}")
            self.poll(at - 1, "poll a nanosecond before the limit reaches the front")
            self.line(f"timeout_receive {at}")
            self.poll(at, "poll at the instant the limit reaches the front")


# Profiles: each writes one session, or a few, of some hundred calls


def stream(w):
    """A caller's stream over a line that loses, repeats, reorders and delays; repairs come a round trip after their NACK."""
    w.open(delay=w.pick(20 * MS, 60 * MS, 100 * MS), initial=5 * MS, resend=20 * MS, clock_rate=w.pick(8000, 48000, 90000))
    m, ticks = w.model, w.model.clock_rate // 50
    number, timestamp = w.random.randrange(2**16), w.random.randrange(2**32)
    loss, trip, held, asked = w.pick(0, 0.05, 0.2), w.random.randrange(1, 80 * MS), [], []
    start = w.random.randrange(2**40)
    for packet in range(w.random.randrange(50, 200)):
        now = max(m.clock, start + packet * 20 * MS + w.random.randrange(w.pick(1, 5 * MS, 30 * MS)))
        if w.chance(loss):
            pass
        elif w.chance(0.05):
            held.append((number + packet, timestamp + packet * ticks))
        else:
            w.media(now, number + packet, timestamp + packet * ticks)
        if held and w.chance(0.4):
            w.media(now, *held.pop(0))
        if w.chance(0.03):
            w.media(now, number + packet - w.random.randrange(3), timestamp + packet * ticks)
        before = {n: gap[2] for n, gap in m.gaps.items()}
        w.poll_nack(now)
        asked += [(now + trip, n) for n, gap in m.gaps.items() if n in before and gap[2] > before[n] and w.chance(0.8)]
        for at, missing in [a for a in asked if a[0] <= now]:
            asked.remove((at, missing))
            w.repair(now, missing, timestamp + (missing - number) * ticks)
        for _ in range(w.random.randrange(3)):
            w.poll(now)
        w.look(now)
        if w.chance(0.1):
            w.nack_at_due() if w.chance(0.5) else w.poll_at_limit()


def mixture(w):
    """Any call in any order, few distinct numbers, so that rare meetings of rules come often."""
    w.open(depth=w.pick(1, 2, 3, 4), delay=w.pick(0, 1, 1000, 20 * MS), initial=w.pick(0, 1, 1000, 5 * MS),
           resend=w.pick(0, 1, 1000, 20 * MS), max=w.pick(1, 2, 3))
    m = w.model
    number, timestamp = w.pick(0, 1, 5, 65530, 32768, w.random.randrange(2**16)), w.pick(0, 1, 100, 2**32 - 5, 2**31)
    w.look(0)
    for _ in range(w.random.randrange(30, 300)):
        now = w.later()
        reach = w.pick(2, 4, 8)
        high, at = (m.last[2], m.last[1]) if m.last else (number, timestamp)
        near = list(m.gaps)[:4] + [high + w.random.randrange(-reach, reach + 1)]
        kind = w.random.randrange(10)
        if kind < 3:
            number_now = w.random.choice(near) if w.chance(0.5) else high + w.pick(1, 1, 1, 2, 3, 4)
            w.media(now, max(0, number_now), max(0, at + w.random.randrange(-300, 900)))
        elif kind < 5:
            w.repair(now, max(0, w.random.choice(near + list(m.remembered)[:3])), max(0, at + w.random.randrange(-300, 300)))
        elif kind < 7:
            w.poll(now)
        elif kind < 9:
            w.poll_nack(now)
        else:
            w.nack_at_due() if w.chance(0.5) else w.poll_at_limit()
        w.look(m.clock)


def dynamic(w):
    """Mode 2: the delay follows jitter, losses and the round trip, between its ends; with repairs that are samples and without."""
    w.open(mode=2, rtx=w.pick(0, 1, 1, 1), depth=w.pick(5, 20, 100), initial=w.pick(0, 5 * MS), resend=w.pick(0, 20 * MS), max=w.pick(1, 2, 3, 4, 4),
           min=w.pick(0, 0, 1, 10 * MS), max_delay=w.pick(10 * MS, 400 * MS, 60000 * MS, 60000 * MS), clock_rate=w.pick(8000, 48000, 90000, 1, 1000000))
    m, ticks = w.model, max(1, w.model.clock_rate // 50)
    number, timestamp, now = w.random.randrange(2**16), w.random.randrange(2**32), w.random.randrange(2**40)
    loss, trip, spread = w.pick(0, 0.02, 0.2, 0.6), w.pick(0, 1000, w.random.randrange(80 * MS)), w.pick(1, 2 * MS, 30 * MS, 2000 * MS)
    for packet in range(w.random.randrange(20, 80)):
        now = max(m.clock, now + 20 * MS + w.random.randrange(spread) - spread // 2)
        number, timestamp = number + (w.pick(2, 3) if w.chance(loss) else 1), timestamp + ticks
        w.media(now, number, timestamp)
        w.line(f"timeout_receive {m.clock}", "timeout of a dynamic delay")
        if m.gaps and w.chance(0.6):
            w.poll_nack(w.later())
            for missing in list(m.gaps)[:w.pick(0, 1, 1, 2)]:
                w.repair(m.clock + trip, missing, timestamp - ticks)
        if w.chance(0.5):
            w.poll_at_limit()
        w.poll(m.clock, "poll with a dynamic delay")
        w.look(m.clock)


def attempts_edges(w):
    """Mode 2: a target at which the loss is just enough for n attempts, or just not; the delay of the next hand-out shows which."""
    lost = [w.chance(0.5) for _ in range(w.pick(1, 2, 5, w.random.randrange(1, 60)))]
    if w.chance(0.2):
        lost = [True] * w.pick(70, 300, 700)
    share, loss = w.pick(0, 1, 5, 40), 0.0
    for one in lost:    # a repair that came, and the packet that opened its gap
        for event in [False] * (1 + share) + ([True] if one else []):
            loss = loss_after(loss, event)
    k, n = ten_thousandths(loss), w.pick(1, 2, 3)
    edge = 10000 - -(-k**n // 10**(4 * n - 4))    # the largest target that k^n meets
    target = min(9999, max(0, edge + w.pick(0, 0, 1, -1)))
    w.open(mode=2, rtx=1, depth=20, max=w.pick(2, 3, 4, 4), min=w.pick(0, 10 * MS), max_delay=60000 * MS, target=target, clock_rate=8000, initial=0, resend=0,
           max_gaps=999)
    m, number, now = w.model, w.random.randrange(2**16), w.random.randrange(2**40)
    w.media(now, number, 0)
    for one in lost:
        for _ in range(share):
            w.media(m.clock, m.last[2] + 1, m.last[1], payload=b"")
        w.media(m.clock, m.last[2] + (2 if one else 1), m.last[1], payload=b"")
        if one:
            w.line(f"poll_nack {m.clock}")
            m.poll_nack(m.clock)
            w.repair(m.clock + 30 * MS, m.last[2] - 1, m.last[1], payload=b"")
    met = attempts(ten_thousandths(m.loss), m.target, m.max)
    side = "on" if target == edge else "a step above" if target == edge + 1 else "off"
    w.line(f"timeout_receive {m.clock}")
    w.poll(m.clock + 60000 * MS, f"dynamic delay of {met} attempts, target {side} the edge")
    w.line("state")


def bursts(w):
    """Dozens of datagrams in one call: new, late, repeated and crooked ones, none at all, and ends or answer lists that are refused."""
    w.open(depth=w.pick(1, 3, 20, 100), delay=w.pick(0, 20 * MS), initial=w.pick(0, 5 * MS))
    m, number, timestamp = w.model, w.pick(65530, w.random.randrange(2**16)), w.random.randrange(2**32)
    if w.chance(0.5):
        w.media(w.random.randrange(2**30), number, timestamp)
    for _ in range(w.random.randrange(4, 12)):
        now, datagrams = w.later(), []
        for _ in range(w.pick(0, 1, 2, 5, w.random.randrange(40))):
            at = m.number(number % 2**16) if m.last is None else m.last[2]
            chosen = w.pick(at + 1, at + 1, at + 1, at + w.pick(2, 3, 20, 1000, 1001), at, at - 1, *list(m.gaps)[:3])
            timestamp = (m.last[1] if m.last else timestamp) + w.pick(0, 160, 160, w.random.randrange(500))
            if w.chance(0.15):
                faults = {fault for fault in ("short", "version", "CSRCs", "padding", "long", "type", "sender") if w.chance(0.3)}
                datagrams.append(crooked(w, faults, m.pt, m.ssrc, LONGEST) if faults else b"")
            else:
                datagrams.append(w.media_datagram(chosen, timestamp))
                m.media(now, chosen % 2**16, timestamp % 2**32)
        whole = b"".join(datagrams)
        ends = list(itertools.accumulate(map(len, datagrams)))
        if ends and w.chance(0.5):
            bad = list(ends)
            at, kind = w.random.randrange(len(ends)), w.random.randrange(3)
            if kind == 0 and 0 < ends[at]:
                bad.insert(at + 1, ends[at] - 1)
                w.burst(now, datagrams, "burst with ends that fall", places=len(bad), ends=bad)
            elif kind == 1:
                bad[-1] = len(whole) + w.pick(1, 2**32, 2**64 - 1 - len(whole))
                w.burst(w.pick(now, 0), datagrams, "burst with an end past the buffer", ends=bad)
            else:
                w.burst(w.pick(now, 0), datagrams, "burst with a short answer list", places=len(ends) - 1)
        w.burst(now, datagrams, "burst" if datagrams else "burst of no datagram", places=len(ends) + w.pick(0, 0, 1, 2**40), after=w.random.randbytes(w.pick(0, 0, 5)))
        if m.clock and w.chance(0.2):
            w.burst(m.clock - 1, datagrams[:3], "burst before the clock" if datagrams else None)
        if w.chance(0.5):
            w.line("state")
        for _ in range(w.random.randrange(4)):
            (w.poll if w.chance(0.6) else w.poll_nack)(w.later())
        w.look(m.clock)


def due_instants(w):
    """NACKs on the instant and a nanosecond before, first and repeated ones, with and without a measured round trip."""
    w.open(initial=w.pick(0, 1, 5 * MS, 60000 * MS), depth=20)
    m, now, number = w.model, w.random.randrange(2**44), w.random.randrange(2**16)
    w.media(now, number, 0)
    for _ in range(12):
        now = m.clock + w.pick(0, 1, 3906250, w.random.randrange(30 * MS))
        number += w.pick(2, 3, 5)
        w.media(now, number, number)
        for _ in range(w.random.randrange(1, 5)):
            w.nack_at_due()
        if m.rtx and m.gaps and w.chance(0.7):
            missing = w.random.choice(list(m.gaps))
            trip = w.pick(0, 1, 3906250, 3906250, w.random.randrange(40 * MS))
            w.repair(m.clock + trip, missing, missing, "repair of a number NACKed" if m.gaps[missing][2] else None)
        w.look(m.clock)


def limits(w):
    """Hand-out limits: on a tick, a tick or a nanosecond beside it, negative ones, timestamp 0."""
    w.open(mode=1, depth=20, clock_rate=w.pick(8000, 48000, 48000, 44100, 90000, 1, 1000000, 7), delay=w.pick(0, 1, 20 * MS, 100 * MS))
    m, now = w.model, w.pick(0, 5, w.random.randrange(2**45), 2**52 - 1 - 10**11)
    number, timestamp = 10, w.pick(0, 0, 1, 800, 2**32 - 3, w.random.randrange(2**32))
    w.media(now, number, timestamp)
    for _ in range(20):
        number += w.pick(1, 1, 2)
        timestamp += w.pick(0, 1, 27, w.random.randrange(200), m.clock_rate // 50)
        now = m.clock + w.pick(0, 1, 20 * MS, w.random.randrange(40 * MS))
        w.media(now, number, timestamp)
        if m.gaps and m.limit(m.clock) >= 0 and w.chance(0.5):
            missing, now = next(iter(m.gaps)), m.clock + w.random.randrange(MS)
            aim = w.pick(0, 1)
            (w.repair if m.rtx and w.chance(0.5) else w.media)(now, missing, max(0, m.limit(now) + aim))
            if m.entries and m.entries[0][0] == missing and m.entries[0][1] == m.limit(now) + aim:
                w.poll(now, "poll with the front a tick above the limit" if aim else "poll with the front on the limit")
        if m.limit(m.clock) < 0:
            w.poll(m.clock, "poll with a negative limit")
        w.poll_at_limit()
        tick = m.tick_instant()
        if tick is not None and m.clock <= tick:
            w.poll(tick)
        w.look(m.clock)


def jitter(w):
    """Jitter samples at the edges: equal timestamps, deltas near zero, a second's worth of ticks, d equal to the jitter."""
    w.open(clock_rate=w.pick(1, 1, 2, 8000, 48000, 1000000), depth=5)
    m, number, timestamp, now = w.model, w.random.randrange(2**16), w.random.randrange(2**32), w.random.randrange(2**40)
    w.media(now, number, timestamp)
    for _ in range(25):
        second = w.pick(0, 1, 1, 2)
        instant, last, number = m.last
        now = max(m.clock, instant + second * 10**9 + w.pick(-1, 0, 0, 1, 9, 10, 11, w.random.randrange(10**9)))
        beside = w.pick(-1, 0, 0, 1, w.random.randrange(m.clock_rate))
        timestamp = last + second * m.clock_rate + w.pick(-m.clock_rate, m.clock_rate, 0, 1) + beside
        w.media(now, number + w.pick(1, 1, 1, 0, -1), max(0, timestamp))
        w.line("state", "jitter with a sample at an edge")
        w.poll(now)


def deep(w):
    """The largest D and G filled to the last place."""
    w.open(mode=w.pick(0, 1), depth=w.pick(100, 500, 1024), max_gaps=4096, rtx=1, delay=60000 * MS, initial=0, resend=0, max=255)
    m, number = w.model, w.random.randrange(2**16)
    for packet in range(m.depth):
        w.media(packet, number + 2 * packet, 160 * packet)
    w.media(m.clock, m.last[2] + 3, m.last[1] + 160)
    w.poll_nack(m.clock)
    while len(m.entries) < 2 * m.depth:
        w.repair(w.later(), w.random.choice(list(m.gaps)), 5, payload=b"")
    w.line("state", "2 · D entries held")
    w.media(m.clock, m.last[2] + 2, m.last[1] + 160, "new number with 2 · D entries held")
    w.repair(m.clock, m.last[2] - 1, 5, "repair with 2 · D entries held")
    while len(m.gaps) < m.max_gaps:
        w.media(m.clock, m.last[2] + min(1000, m.max_gaps - len(m.gaps) + 1), m.last[1] + 1)
    w.line("state", "G gaps held")
    w.poll_nack(m.clock)
    w.media(m.clock, m.last[2] + 2, 0, "step that would pass G")
    w.poll(m.clock + m.delay)
    w.line("state")
    w.media(m.clock, m.last[2] + 1001, 0, "step 1001")
    w.line("state")


def steps(w):
    """Steps forward of every kind, full gaps, and late packets behind them."""
    w.open(depth=w.pick(2, 5, 1024), max_gaps=w.pick(999, 1000, 1998, 4096))
    m, now, number = w.model, w.random.randrange(2**30), w.random.randrange(2**16)
    w.media(now, number, 0)
    for _ in range(w.random.randrange(5, 25)):
        step = w.pick(1, 2, 2, 3, 500, 999, 1000, 1001, 1002, 20000, 32767, 32768, 32769, m.max_gaps - len(m.gaps) + w.pick(0, 1, 2))
        now = w.later()
        high = m.last[2]
        aims = {2: "step 2", 999: "step 999", 1000: "step 1000", 1001: "step 1001", 32767: "step 32767", 32768: "step of half a cycle"}
        refused = 2 <= step <= 1000 and len(m.gaps) + step - 1 > m.max_gaps
        w.media(now, high + step, m.last[1] + step, "step that would pass G" if refused else aims.get(step))
        if len(m.gaps) == m.max_gaps:
            w.line("state", "G gaps held")
            w.media(m.clock, m.last[2] + 2, 0, "step that would pass G")
            w.media(m.clock, m.last[2] + 1, m.last[1] + 1)
        if m.gaps and w.chance(0.6):
            for missing in w.random.sample(list(m.gaps), min(len(m.gaps), w.random.randrange(1, 8))):
                w.media(m.clock, missing, 5, "late packet of a missing number" if not m.late(missing) else None)
        if w.chance(0.3):
            w.media(m.clock, m.last[2], m.last[1], "the highest number again")
        w.poll_nack(w.later())
        w.poll(w.later())
        w.look(m.clock)


def wraps(w):
    """Numbers and timestamps over several cycles; late packets and repairs across the turn."""
    w.open(depth=w.pick(3, 20), initial=0, delay=w.pick(0, 20 * MS))
    m, now = w.model, w.random.randrange(2**30)
    number, timestamp = w.pick(65533, 65535, 0, 40000), 2**32 - w.random.randrange(1, 500)
    w.media(now, number, timestamp)
    if number < 5:
        w.media(now, 65535, timestamp, "number before the first, across the turn")
    for _ in range(w.random.randrange(3, 9)):
        while m.last[2] % 65536 < 65530:
            to = 65531 - m.last[2] % 65536
            timestamp += w.pick(160, 2**30, 2**31 - 1)
            step = min(to, w.pick(1000, 20000, 32767))
            if step <= 1000 and len(m.gaps) + step > m.max_gaps:
                step = 1001    # it would be refused under 12
            w.media(w.later(), m.last[2] + step, timestamp)
        while m.last[2] % 65536 >= 65530:
            timestamp += 160
            w.media(w.later(), m.last[2] + w.pick(1, 2, 3, 7), timestamp, "media near 65,535")
            w.poll_nack(m.clock)
            for missing in list(m.gaps)[-3:]:
                if missing % 65536 > 65500 and m.last[2] % 65536 < 100:
                    (w.repair if m.rtx and w.chance(0.6) else w.media)(w.later(), missing, timestamp, "late number across the turn")
            w.look(m.clock)
            if w.chance(0.5):
                w.poll(w.later())
    w.line("state", f"state in cycle {m.last[2] >> 16}")


def joins(w):
    """An operator who joins late: next after the first packet, numbers and timestamps behind it and ahead, at half a cycle too."""
    for _ in range(w.random.randrange(4, 9)):
        w.open(depth=w.pick(2, 20), delay=w.pick(0, 20 * MS))
        m, now = w.model, w.random.randrange(2**30)
        number, timestamp = w.pick(0, 5, 32767, 32768, 65535, w.random.randrange(2**16)), w.pick(0, 5, 2**31, 2**32 - 1, w.random.randrange(2**32))
        w.media(now, number, timestamp)
        if w.chance(0.3):
            w.poll(w.later())
        behind, earlier = w.pick(1, 2, 11, 32766, 32767), w.pick(0, 1, 160, 2**31 - 1, 2**31)
        for _ in range(w.random.randrange(1, 4)):
            w.media(w.later(), number - behind, timestamp - earlier, "number before the first")
            behind = w.pick(behind, 1, w.random.randrange(1, 32768))
        w.line("state", "state after a number before the first")
        ahead = w.pick(1, 2, 1000, 1001, 32767, 32768)
        w.media(w.later(), number + ahead, timestamp + w.pick(160, 2**31 - 1, 2**31), "half a cycle from the first" if ahead == 32768 else "number after the first")
        w.media(w.later(), number - 1, timestamp, "number before the first, once another came")
        w.line("state")
        w.look(m.clock)


def wired(w):
    """A wired bench: the round trip measures next to nothing, and NACKs wait for the floor under the resend delay."""
    w.open(initial=w.pick(0, 0, 5 * MS), resend=w.pick(0, 20 * MS), rtx=1, max=w.pick(3, 255), delay=60000 * MS, depth=w.pick(20, 100))
    m, now, timestamp = w.model, w.random.randrange(2**30), 0
    number = w.random.randrange(2**16)
    w.media(now, number, timestamp)
    for _ in range(w.random.randrange(5, 12)):
        number, timestamp = number + w.pick(2, 2, 3, 8), timestamp + 160
        w.media(w.later(), number, timestamp)
        w.poll_nack(m.clock)
        w.nack_at_due()
        if m.rtt is None or w.chance(0.4):
            for missing in list(m.gaps)[:1]:
                w.repair(m.clock + w.pick(0, 1, 1000, 400000, 399999, 800000), missing, timestamp, "short round trip")
        first = m.clock
        for at in (first, first + 1, first + 999999, first + 1000000, first + 1000001):
            if at >= m.clock:
                w.poll_nack(at, "NACK near the floor of the resend delay" if m.rtt else None)
        w.look(m.clock)


def full(w):
    """Repairs raise the entries to 2 · D; then one more repair, and media packets at that count."""
    w.open(depth=w.pick(1, 2, 3, 7), rtx=1, delay=60000 * MS, initial=0, max=255)
    m, now, number = w.model, w.random.randrange(2**30), w.random.randrange(2**16)
    w.media(now, number, 0)
    if m.mode == 0 and w.chance(0.6):    # numbers stay missing below the last returned one
        w.poll(now)
        w.media(now, number + 4, 160)
        w.poll(now)
    while len(m.entries) < m.depth or not m.gaps:
        w.media(now, m.last[2] + 4, m.last[1] + 160)
    for _ in range(6):
        missing = [n for n in m.gaps if not m.late(n)]
        for number in w.random.sample(missing, len(missing)):
            if len(m.entries) == 2 * m.depth:
                w.line("state", "2 · D entries held")
                where = "" if m.returned is None or number > m.returned else " below the last returned number"
                w.repair(w.later(), number, 5, f"repair{where} with 2 · D entries held")
                break
            w.repair(w.later(), number, 5)
        if len(m.entries) == 2 * m.depth and w.chance(0.5):
            late = [n for n in m.gaps if not m.late(n)]
            if late:
                where = " below the front" if late[0] < m.entries[0][0] else ""
                w.media(w.later(), late[0], 5, f"late packet{where} with 2 · D entries held")
        aim = "new number with 2 · D entries held" if len(m.entries) == 2 * m.depth else None
        w.media(w.later(), m.last[2] + w.pick(1, 2, 4), m.last[1] + 160, aim)
        w.look(m.clock)
        if w.chance(0.5):
            w.poll_nack(w.later())
            w.poll(w.later())


def remembered(w):
    """Lost numbers NACKed just once, up to 1,024 of them and beyond; late repairs of the oldest, the newest and of none."""
    w.open(mode=1, depth=20, rtx=1, initial=0, resend=60000 * MS, delay=0, clock_rate=8000, max_gaps=999)
    m, now, number = w.model, w.random.randrange(2**30), w.random.randrange(2**16)
    w.media(now, number, 0)
    for _ in range(w.pick(2, 3)):
        w.media(m.clock, m.last[2] + w.pick(1000, 900), m.last[1])
        w.poll_nack(m.clock)
        if w.chance(0.3):
            for gap in list(m.gaps)[:w.random.randrange(5)]:
                w.repair(m.clock, gap, m.last[1])
        while m.entries:
            w.poll(m.clock)
        if len(m.remembered) == 1024:
            w.line("state", "1,024 remembered")
    for _ in range(w.random.randrange(4, 20)):
        known = list(m.remembered)
        number = w.pick(known[0], known[-1], known[0] - 1, w.random.choice(known), m.returned)
        w.repair(w.later(), number, 0, f"late repair of {'a' if number in m.remembered else 'no'} remembered number")
        if w.chance(0.3):
            w.repair(w.later(), number, 0, "late repair a second time")
        w.line("rtx_stats")
    if w.chance(0.3):
        w.line("state")


def masks(w):
    """Missing numbers in runs of every shape about the sixteen of a mask, across 65,535 too, asked for on the wire; outputs too short."""
    w.open(initial=w.pick(0, 0, 5 * MS), resend=w.pick(0, 20 * MS), depth=w.pick(20, 1024), max=w.pick(1, 3, 255), delay=60000 * MS)
    m, places = w.model, 4 * w.model.max_gaps
    number = w.pick(65500, 65520, 65535, w.random.randrange(2**16))
    w.media(w.random.randrange(2**30), number, 0)
    for _ in range(w.random.randrange(2, 8)):
        step = w.pick(2, 3, 16, 17, 18, 19, 33, 34, 35, w.random.randrange(2, 80), 500)
        if len(m.gaps) + step - 1 <= m.max_gaps:
            w.media(w.later(), m.last[2] + step, m.last[1] + 160)
        for missing in w.random.sample(list(m.gaps), int(len(m.gaps) * w.pick(0, 0.1, 0.5, 0.9))):
            (w.repair if m.rtx and w.chance(0.5) else w.media)(m.clock, missing, 5)
        now = max(m.clock, *m.due_instants()) if m.gaps and w.chance(0.6) else w.later()
        w.line(f"nack_wire {now} {w.pick(0, places - 1, places - 4)}", "entries for an output too short")
        if w.chance(0.1):
            w.line(f"nack_wire {max(0, m.clock - 1)} {places - 1}", "entries for an output too short, before the clock")
        w.line(f"nack_wire {now} {w.pick(places, places, places + 1, 2**64 - 1)}", "entries of the missing numbers")
        m.poll_nack(now)
        w.look(m.clock)


def two_cycles(w):
    """Passthrough: a number stays missing for more than a cycle, so that the 16 bits of two missing ones are next to each other."""
    w.open(mode=0, initial=0, resend=w.pick(0, 0, 20 * MS), max=255, depth=1, clock_rate=8000, max_gaps=w.pick(999, 1500))
    m, number = w.model, w.random.randrange(2**16)
    now = w.random.randrange(2**30)
    w.media(now, number, 0)
    w.media(now, number + 3, 0)
    first, beyond = m.last[2] - 2, m.last[2] - 2 + 2**16 + w.pick(0, 1, 2, 15, 16, 17)
    while m.last[2] < beyond - 1:
        w.poll(now)    # else the next packet pushes it out, and what is missing below with it
        if beyond - 1 - m.last[2] > 400:
            w.media(now, m.last[2] + 400, m.last[1] + 1, payload=b"")
            for missing in list(m.gaps)[2:]:
                w.poll(now)
                w.media(now, missing, 0, payload=b"")
        else:
            w.media(now, m.last[2] + 1, m.last[1] + 1, payload=b"")
    w.poll(now)
    w.media(now, beyond + 1, m.last[1] + 1)
    w.line(f"nack_wire {now} {4 * m.max_gaps}", "entries of numbers a cycle apart" if first in m.gaps else None)
    m.poll_nack(now)
    w.line("state")
    w.poll_nack(w.later())
    w.look(m.clock)


def entries(w):
    """Entries for the reader: made by a writer and by none, lists of every length, bytes that are no whole entries."""
    for _ in range(w.random.randrange(100, 200)):
        count = w.pick(0, 1, 1, 2, 3, w.random.randrange(20), w.random.randrange(120))
        first = lambda: w.pick(0, 1, 65535, 65520, 65519, w.random.randrange(2**16))
        mask = lambda: w.pick(0, 1, 2**15, 2**16 - 1, w.random.randrange(2**16))
        data = b"".join(first().to_bytes(2, "big") + mask().to_bytes(2, "big") for _ in range(count))
        if w.chance(0.2):
            data += w.random.randbytes(w.random.randrange(1, 4))
        least = 17 * (len(data) // 4)
        places = w.pick(least, least, least, least + 1, 2**64 - 1, max(0, least - 1), w.random.randrange(least + 1))
        aims = {(0, 0): "whole entries", (0, 1): "entries with 1 to 3 bytes more", (1, 0): "entries for a list too short",
                (1, 1): "entries for a list too short, with 1 to 3 bytes more"}
        w.line(f"read_nacks {places} {hexed(data)}", aims[places < least, len(data) % 4 > 0])


def giving_up(w):
    """Passthrough: numbers NACKed the most often allowed are lost at the next poll, of an empty queue too."""
    w.open(mode=0, max=w.pick(1, 2, 3, 255), initial=w.pick(0, 5 * MS), resend=w.pick(0, 1, 20 * MS), depth=w.pick(2, 100))
    m, number = w.model, w.random.randrange(2**16)
    w.media(0, number, 0)
    for _ in range(15):
        w.media(w.later(), m.last[2] + w.pick(1, 2, 3), m.last[1] + 160)
        while m.entries and w.chance(0.8):
            w.poll(w.later())
        for _ in range(w.random.randrange(4)):
            w.nack_at_due()
        front = next(iter(m.gaps.values()), None)
        if front and front[2] >= m.max:
            w.line(f"timeout_nack {m.clock}", "timeout of a number to be lost")
            w.line("state")
            (w.poll if w.chance(0.5) else w.poll_nack)(m.clock, "poll of an empty queue that loses" if not m.entries else "poll that loses")
            w.line("state")
        if m.gaps and m.rtx and w.chance(0.3):
            w.repair(w.later(), w.random.choice(list(m.gaps)), 7)
        w.look(m.clock)


def wide(w):
    """Timestamps a cycle's half apart at low clock rates, instants near their end, the longest durations."""
    w.open(mode=1, clock_rate=w.pick(1, 2, 8000), delay=w.pick(0, 60000 * MS), depth=20, initial=60000 * MS, resend=60000 * MS)
    m, now, timestamp = w.model, w.pick(0, MAX_INSTANT - 10**12, MAX_INSTANT - 5), w.random.randrange(2**32)
    number = w.random.randrange(2**16)
    w.media(now, number, timestamp)
    for _ in range(12):
        number += w.pick(1, 2)
        timestamp += w.pick(2**31 - 1, 2**31, -(2**31) + 1, 2**30, 1, 4503599, 9007199, 9007200)
        w.media(min(MAX_INSTANT, m.clock + w.pick(0, 1, 10**9, 10**11)), number, max(0, timestamp))
        w.line(f"timeout_receive {m.clock}", "timeout of timestamps far apart")
        w.line(f"timeout_nack {m.clock}")
        w.poll(m.clock)
        w.poll_nack(min(MAX_INSTANT, m.clock + w.pick(0, 60000 * MS - 1, 60000 * MS)))
        w.look(m.clock)
    for call in ("poll", "poll_nack", "timeout_receive", "timeout_nack"):
        w.line(f"{call} {MAX_INSTANT + 1}", "instant past its end")
        w.line(f"{call} {2**64 - 1}", "instant past its end")
    w.poll(MAX_INSTANT, "the last instant")


def clocks(w):
    """Instants before the latest accepted one; timeouts do not advance it."""
    w.open(depth=5)
    m, now = w.model, w.random.randrange(10, 2**40)
    w.line(f"timeout_receive {now}")
    w.line(f"timeout_nack {now}")
    w.media(now - 5, 1, 0)
    w.poll(now)
    for call in ("poll", "poll_nack", "timeout_receive", "timeout_nack"):
        w.line(f"{call} {m.clock - 1}", "instant before the clock")
    w.line(f"nack_wire {m.clock - 1} {4 * m.max_gaps}", "instant before the clock")
    w.line(f"timeout_receive {now + 10}")
    w.poll_nack(now)
    good = datagram(m.pt, 2, 0, m.ssrc).hex()
    w.line(f"media {now - 1} {good}", "instant before the clock")
    w.line(f"repair {now - 1} {good}", "instant before the clock")
    w.line(f"repair {now - 1} 80", "instant before the clock")
    w.media(now, 1, 0, "the highest number again")
    w.line("state")


def crooked(w, faults, pt, ssrc, longest):
    """A datagram with all of these faults: the first check that catches it counts."""
    payload = bytes(longest + w.pick(1, 50)) if "long" in faults else bytes(w.random.randrange(2, 6))
    data = bytearray(datagram(pt ^ ("type" in faults), 7, 9, ssrc ^ ("sender" in faults), payload))
    if "padding" in faults:
        data[0] |= 0x20
        data[-1] = 0 if "long" in faults else w.pick(0, 255)
    if "CSRCs" in faults:
        data[0] |= 0x0F
        data = data[:71]
    if "version" in faults:
        data[0] ^= w.pick(0x40, 0x80, 0xC0)
    return bytes(data[:w.random.randrange(12)] if "short" in faults else data)


def malformed(w):
    """Every malformed datagram, as media and as repair, and the order of the checks."""
    w.open(rtx=w.pick(0, 1, 1, 1), depth=5)
    m = w.model
    w.repair(0, 5, 0, "repair before any media packet" if m.rtx else "repair without RTX")
    if w.chance(0.7):
        w.media(w.pick(0, 9), w.random.randrange(2**16), 0)
    if w.chance(0.5):
        w.media(m.clock, 5, 0)
    for call, pt, ssrc, longest in (("media", m.pt, m.ssrc, LONGEST), ("repair", m.rtx_pt, m.rtx_ssrc, LONGEST + 2)):
        for data, aim in malformed_datagrams(w, pt, ssrc, longest):
            w.line(f"{call} {m.clock} {hexed(data)}", aim)
            if w.chance(0.1):
                w.line("state")
        for _ in range(30):
            faults = {fault for fault in ("instant", "short", "version", "CSRCs", "padding", "long", "type", "sender") if w.chance(0.35)}
            faults -= set() if m.clock else {"instant"}
            if faults:
                now = m.clock - ("instant" in faults)
                w.line(f"{call} {now} {hexed(crooked(w, faults, pt, ssrc, longest))}", "several faults at once")
    for payload in (b"", b"\0"):
        data = datagram(m.rtx_pt, 7, 9, m.rtx_ssrc, payload, padding=w.pick(0, 3))
        w.line(f"repair {m.clock} {data.hex()}", "repair payload under 2 bytes" if m.rtx else "repair without RTX")
    w.line("state")
    w.media(m.clock, 6, 0, "payload of 320 bytes", payload=bytes(LONGEST))
    w.repair(m.clock, 6, 0, "repair payload of 322 bytes", payload=bytes(LONGEST))
    w.line("state")


def malformed_datagrams(w, pt, ssrc, longest):
    """Each with what is wrong with it; where two things are, the aim names the one that is checked first."""

    def packet(payload=b"\0\x07", pt=pt, ssrc=ssrc, **more):
        return datagram(pt, 7, 9, ssrc, payload, **more)

    good = packet()
    for size in range(12):
        yield good[:size], "datagram under 12 bytes"
    for version in (0x00, 0x40, 0xC0):
        yield bytes([version | w.random.randrange(64)]) + good[1:], "version not 2"
    for csrcs in (1, 2, 15):
        yield packet(b"", csrcs=csrcs)[:-1 - w.random.randrange(4 * csrcs)], "datagram under its CSRCs"
    for words, cut in ((0, 1), (0, 4), (1, 1), (3, 5), (3, 12)):
        yield packet(b"", csrcs=w.pick(0, 2), extension=words)[:-cut], "datagram under its extension"
    yield bytes([0x90]) + good[1:12] + b"\xbe\xde\xff\xff" + bytes(1000), "datagram under its extension"
    yield bytes([0xA0]) + good[1:12], "padding bit, no byte after the header"
    yield bytes([0xA0]) + good[1:12] + bytes(w.pick(1, 5)), "padding of count 0"
    for size, count in ((1, 2), (4, 5), (4, 255), (254, 255)):
        yield bytes([0xA0]) + good[1:12] + bytes(size - 1) + bytes([count]), "padding past the bytes after the header"
    for size in (longest + 1, longest + 2, longest + 3, 1000, 1460):
        yield packet(bytes(size), csrcs=w.pick(0, 1)), "payload too long"
    yield packet(bytes(longest + 1), padding=4), "payload too long"
    yield packet(bytes(longest + 1), pt=pt ^ 1, ssrc=ssrc ^ 1), "payload too long"
    for bit in range(7):
        yield packet(pt=pt ^ 1 << bit, ssrc=ssrc ^ w.pick(0, 1)), "foreign payload type"
    for bit in range(32):
        yield packet(ssrc=ssrc ^ 1 << bit), "foreign SSRC"


def flips(w):
    """An accepted datagram with each bit of its header, and some of its payload, turned over; some of these are accepted."""
    w.open(depth=5, rtx=1, clock_rate=8000)
    m, number = w.model, w.random.randrange(2**16)
    w.media(0, number, 0)
    for kind in ("media", "repair"):
        pt, ssrc, payload = (m.pt, m.ssrc, b"voice") if kind == "media" else (m.rtx_pt, m.rtx_ssrc, repair_payload((number + 2) % 2**16))
        good = datagram(pt, (number + 5) % 2**16, 160, ssrc, payload, csrcs=w.pick(0, 1), extension=w.pick(None, 1), padding=w.pick(0, 2))
        for bit in w.random.sample(range(8 * len(good)), min(8 * len(good), 120)):
            data = bytearray(good)
            data[bit // 8] ^= 0x80 >> bit % 8
            w.line(f"{kind} {m.clock} {data.hex()}", "SSRC with a bit turned over" if 64 <= bit < 96 else "datagram with a bit turned over")
            if w.chance(0.1):
                w.line("state")
        w.line(f"{kind} {m.clock} {good.hex()}")


def openings(w):
    """Each setting at both ends of its range and beyond; a refused opening leaves the session before it."""
    w.open(depth=3)
    w.media(5, 10, 0)
    good = dict(zip(FIELDS, (1, 8000, 2, 999, 5, 5, 5, 3, 0, 1, 1, 97, 2)))
    duration, payload_type, sender = (0, 60 * 10**9), (0, 127), (0, 2**32 - 1)
    edges = dict(zip(FIELDS, ((0, 1), (1, 10**6), (1, 1024), (999, 4096), duration, duration, duration, (1, 255), payload_type, sender,
                              (0, 1), payload_type, sender)))
    for field in w.random.sample(FIELDS, len(FIELDS)):
        low, high = edges[field]
        for value in [high + 1, 2**32, 2**32 + low, 2**64 - 1] + ([low - 1, 0] if low else []):
            settings = dict(good, **{field: value})
            if low <= value <= high or field == "mode" and value == 2:
                continue
            w.line("open " + " ".join(str(settings[name]) for name in FIELDS), f"opening with {field} out of range")
        w.line("state")
    good_dynamic = dict(good, mode=2, min=5, max_delay=5, target=9999)
    for field, value in (("max", 0), ("max", 5), ("max", 255), ("max", 2**32 + 1), ("min", 6), ("min", 60 * 10**9 + 1), ("max_delay", 4), ("max_delay", 60 * 10**9 + 1),
                         ("max_delay", 2**64 - 1), ("target", 10000), ("target", 2**32), ("target", 2**64 - 1), ("delay", 60 * 10**9 + 1), ("depth", 0)):
        w.line(opening(dict(good_dynamic, **{field: value})), f"dynamic opening with {field} out of range")
    for mode in (0, 1, 2, 3, 2**64 - 1):
        fields = FIELDS + (DYNAMIC_FIELDS if mode != 2 else [])
        w.line("open " + " ".join(str(dict(good_dynamic, mode=mode)[name]) for name in fields), "opening with the fields of another mode")
    w.line("state")
    for field, value in (("max", 1), ("max", 4), ("min", 0), ("max_delay", 60 * 10**9), ("target", 0), ("delay", 60 * 10**9)):
        w.open(**dict(good_dynamic, **{field: value}))
        w.media(5, 10, 0)
        w.look(5)
    for field in w.random.sample(FIELDS, 4):
        w.open(**dict(good, **{field: w.random.choice(edges[field])}))
        w.media(5, 10, 0)
        w.look(5)


# The settings that a line keeps, as `write_settings` has them, and both ends of each range
KEPT = "mode clock_rate depth max_gaps delay initial resend max min max_delay target".split()
ENDS = dict(zip(KEPT, ((0, 2), (1, 10**6), (1, 1024), (999, 4096), (0, 60 * 10**9), (0, 60 * 10**9), (0, 60 * 10**9), (1, 255), (0, 60 * 10**9),
                       (0, 60 * 10**9), (0, 9999))))


def kept(w):
    """Settings in range, often at an end of it."""
    s = {name: w.pick(low, high, w.random.randrange(low, high + 1)) for name, (low, high) in ENDS.items()}
    if s["mode"] == 2:
        s["min"], s["max_delay"] = sorted((s["min"], s["max_delay"]))
        s["max"] = w.pick(1, 4, w.random.randrange(1, 5))
    else:
        s.update(min=0, max_delay=0, target=0)
    return s if s["mode"] == 1 else dict(s, delay=0)


def damaged(w, s):
    """The settings with one of them out of range, or not 0 where it must be, and what is wrong."""
    name = w.pick(*KEPT)
    low, high = ENDS[name]
    value, aim = w.pick(high + 1, max(0, low - 1), 10**12 - 1, 5), f"{name} out of range or not 0"
    if name == "min" and s["mode"] == 2:
        value = s["max_delay"] + 1
    return dict(s, **{name: value}), aim


def settings_lines(w):
    """Settings lines of both versions, read and written: every range at both ends and beyond, and lines with a byte or a length wrong."""
    def line(version, s, window=0):
        fields = [version] + [s[name] for name in KEPT[:8]] + ([window] if version == 1 else [s[name] for name in KEPT[8:]])
        return bytearray("".join(f"{field:>12}" for field in fields) + "\n", "ascii")

    for _ in range(w.random.randrange(40, 80)):
        s, aim = kept(w), "settings in range"
        if w.chance(0.4):
            s, aim = damaged(w, s)
        places = w.pick(145, 145, 146, 2**64 - 1, 144, 0)
        w.line(f"write_settings {places} " + " ".join(str(s[name]) for name in KEPT), aim if places >= 145 else f"{aim}, an output under 145 bytes")
        version = w.pick(1, 2, 2)
        data = line(version, {name: s[name] % 10**12 for name in KEPT}, w.pick(0, 200 * MS, 10**12 - 1))
        w.line(f"read_settings {data.hex()}", f"line of version {version}: {aim}")
        at, kind = w.random.randrange(len(data)), w.random.randrange(6)
        if kind == 0:
            data[at] = w.pick(32, 48, 49, 57, 47, 58, 9, 10, 0, 255, w.random.randrange(256))
        elif kind == 1:
            del data[at:at + w.pick(1, 12, 24)]
        elif kind == 2:
            data[at:at] = w.pick(b" ", b"0", bytes(12), b" " * 11 + b"0", b"\n")
        elif kind == 3:
            data = data[:at] if w.chance(0.5) else data[:w.pick(0, 1, 11, 12, 13, 24, 120, 121, 144)]
        elif kind == 4:
            at = 12 * w.random.randrange(1, len(data) // 12)
            data[at:at + 12] = w.pick(b"000000000007", b"          07", b" " * 12, b"           -", b"1          1", b"        1   ", b"999999999999", b"          +7")
        else:
            data[:12] = w.pick(b"           0", b"           3", b"          01", b"1           ", b"          12", b"           a", b"           1", b"           2")
        w.line(f"read_settings {hexed(bytes(data))}", "settings line with something altered")


def lines(w):
    """Lines that are no call, lines passed over, and calls of the longest size."""
    w.open()
    m = w.model
    w.media(0, 10, 0)
    session = "open 1 8000 2 999 5 5 5 3 0 1 1 97"
    bad = ["poll", "poll ", "poll  0", " poll 0", "poll 0 ", "poll 00", "poll 01", "poll -1", "poll +1", "poll 1.0", "poll 0x5",
           f"poll {2**64}", f"poll {10 * 2**64}", "poll -", "poll 5\r", "poll\t5", "Poll 5", "polls 5", "poll_nack", "poll_nack 1 1",
           "pollnack 1", "nack_wire 5", "nack_wire 5 ", "nack_wire 5 4000 1", "nack_wire 5 -", f"nack_wire 5 {2**64}",
           "read_nacks 5", "read_nacks -", "read_nacks 17 0", "read_nacks 17 ", "read_nacks 17 - -", f"read_nacks {2**64} -", "timeout 5", "timeout_receive", "timeout_nack a", "rtx_stats 0", "rtx_stats ", "highest 1", "state 0",
           "state ", "state state", "media", "media 0", "media 0 ", "media 0 8", "media 0 8g", "media 0 80FF", "media 0 0x80",
           "media 0 --", "media 0 80 80", "media - 80", "media  0 80", f"media {2**64} 80", "repair 0", "repair 0 ", "repair 0 123",
           "open", "open 1", session, f"{session} ", f"{session} -", f"{session} 2 2", f"{session} {2**64}", f"{session} 02",
           "burst", "burst 0", "burst 0 0", "burst 0 0 ", "burst 0 0 - ", "burst 0 1 8 0", "burst 0 1 80 00", "burst 0 1 80 -", f"burst 0 1 80 {2**64}",
           "burst - 0 -", "burst 0 - -", "read_settings", "read_settings ", "read_settings 2", "read_settings 20 20", "read_settings - ", "write_settings 145",
           "write_settings 145 1 8000 2 999 5 5 5 3 0 0", "write_settings 145 1 8000 2 999 5 5 5 3 0 0 0 0", "write_settings 145 1 8000 2 999 5 5 5 3 0 0 -",
           f"write_settings 145 1 8000 2 999 5 5 5 3 0 0 {2**64}", "unreadable", "-", " ", "  ", " # no comment", "poll 5#", "media 0 80 # comment", "\x00", "poll \x005", "é", "\x7f"]
    for line in w.random.sample(bad, len(bad)):
        w.line(line, "line that is no call")
        if w.chance(0.05):
            w.line("state")
    for text in ("", "#", "# ordinary comment", "#poll 5", "# " + "x" * 5000):
        w.lines.append(text)
    lengths = (4095, 4096, 65534, 65535, 65536, 65537, 70000) if w.most_depth == 1024 else (65535, 65536, 70000)
    for length in lengths:
        head = f"media {m.clock + (5 if length % 2 == 0 else 10)} "    # the digits are even in number
        w.line(head + "8" * (length - len(head)), f"datagram in a line of {length} bytes")
    w.line("poll " + "0" * 65530, "line that is no call")
    w.line("x" * 65536, "line that is no call")
    many = f"burst {m.clock} 40000 -"
    w.line(many + " 0" * ((65535 - len(many)) // 2), "burst of as many datagrams as a line holds")
    most = (65535 - len("read_nacks 139264 ")) // 8 if w.most_depth == 1024 else 2000
    w.line("read_nacks 139264 " + "0000ffff" * most, "a list of numbers longer than a block")
    w.line("highest")
    w.line("state")


def far(w):
    """Timestamps to the end of their range, near half a cycle at a time: refusal 14."""
    w.open(mode=w.pick(0, 1), depth=1, max_gaps=999, clock_rate=w.pick(1, 8000), rtx=1)
    m, number, timestamp = w.model, 2**16, 2**33 - 1    # the first packet, in cycle 1
    w.media(0, number, timestamp)
    while timestamp + 2**31 - 1 <= MAX_INSTANT:
        number, timestamp = number + 1, timestamp + 2**31 - 1
        data = datagram(m.pt, number % 2**16, timestamp % 2**32, m.ssrc)
        w.line(f"media 0 {data.hex()}")
        m.last = (0, timestamp, number)
    m.entries, m.returned = [(number, timestamp)], number - 1
    w.line("state")
    for beyond in (MAX_INSTANT - timestamp + 1, MAX_INSTANT - timestamp + 2, 2**31 - 1):
        w.media(1, number + 1, timestamp + beyond, "timestamp past its end")
        w.media(1, number, timestamp + beyond, "timestamp past its end")
        w.repair(1, number, timestamp + beyond, "timestamp past its end")
    w.line("state")
    w.media(1, number + 1, MAX_INSTANT, "the last timestamp")
    w.media(1, number + 2, MAX_INSTANT + 1, "timestamp past its end")
    w.media(1, number + 1001, MAX_INSTANT - 5)
    w.media(1, number + 1003, MAX_INSTANT + 1, "timestamp past its end, and no place for the gaps")
    w.media(1, number + 1003, MAX_INSTANT, "step that would pass G")
    w.line("state")
    w.repair(1, number + 1000, MAX_INSTANT)
    w.repair(1, number + 999, MAX_INSTANT + 1, "timestamp past its end, and no place for the repair")
    w.repair(1, number + 999, MAX_INSTANT, "repair with 2 · D entries held")
    for _ in range(3):
        w.line(f"timeout_receive {m.clock}")
        w.poll(m.clock + 60000 * MS)
    w.line("state")


# How often each is drawn; `far` and `two_cycles` are not
WEIGHTS = {stream: 6, mixture: 10, dynamic: 4, attempts_edges: 3, bursts: 4, due_instants: 4, limits: 4, jitter: 3, deep: 0.3, steps: 2, wraps: 2, masks: 4, entries: 2, joins: 2, wired: 2, full: 3, remembered: 1,
           giving_up: 3, wide: 2, clocks: 1, malformed: 1, flips: 1, openings: 1, settings_lines: 2, lines: 1}
PROFILES = {profile.__name__: profile for profile in (*WEIGHTS, far, two_cycles)}


def before_any_session(w):
    for call in ("poll", "media", "burst", "repair", "poll_nack", "nack_wire", "timeout_receive", "timeout_nack", "rtx_stats", "highest", "state"):
        fields = {"media": " 0 80", "burst": " 0 0 80 5", "repair": " 0 -", "nack_wire": " 0 0", "rtx_stats": "", "highest": "", "state": ""}.get(call, " 0")
        w.line(call + fields, "call before any session")
    w.line("open 1 0 2 999 5 5 5 3 0 1 1 97 2", "refused opening before any session")
    w.line("poll 0", "call before any session")


def write(w, profile):
    w.lines.append(f"# {profile.__name__}")
    profile(w)


def made(seed, calls, names):
    """A trace as text: sessions of the profiles named, or of all that have a weight, until it has as many calls."""
    w = Writer(seed)
    before_any_session(w)
    profiles = [PROFILES[name] for name in names] or list(WEIGHTS)
    weights = [WEIGHTS.get(profile, 1) for profile in profiles]
    while True:
        write(w, w.random.choices(profiles, weights)[0])
        if w.calls >= calls:
            break
    w.line("highest")
    return "\n".join(w.lines) + w.pick("", "\n")
