"""What the tools share of docs/TRACE.md: datagrams, the answers of each call, and reading files."""

import contextlib
import struct
import sys

FIELDS = "mode clock_rate depth max_gaps delay initial resend max pt ssrc rtx rtx_pt rtx_ssrc".split()
DYNAMIC_FIELDS = "min max_delay target".split()    # in mode 2 alone
MAX_INSTANT = 2**52 - 1

# Every answer of every call that a trace can meet, without its values
_DATAGRAM = "refused 2,refused 3,refused 4,refused 5,refused 6,refused 7,refused 8,refused 14"
ANSWERS = {call: words.split(",") for call, words in {
    "open": "opened,refused 1",
    "media": f"no session,queued,dropped,{_DATAGRAM},refused 12",
    "burst": "no session,nothing,answers,refused 15",
    "repair": f"no session,recovered,redundant,too late,refused 9,{_DATAGRAM},refused 10,refused 11,refused 13",
    "poll": "no session,nothing,packet,refused 8",
    "poll_nack": "no session,nothing,nack,refused 8",
    "nack_wire": "no session,nothing,wire,refused 15,refused 8",
    "read_nacks": "nothing,numbers,refused 15,refused 17",
    "timeout_receive": "no session,none,after,refused 8",
    "timeout_nack": "no session,none,after,refused 8",
    "rtx_stats": "no session,none,rtx",
    "highest": "no session,none,highest",
    "state": "no session,state",
    "read_settings": "settings,refused 21,refused 20,refused 1",
    "write_settings": "line,refused 1,refused 15",
    "(no call)": "unreadable",
}.items()}


# What a refusal means, in few words
MEANINGS = {
    1: "settings", 2: "datagram too short", 3: "version not 2", 4: "padding", 5: "payload too long", 6: "foreign payload type",
    7: "foreign sender", 8: "clock going back or past its end", 9: "repair without RTX", 10: "repair before any packet",
    11: "repair without a number", 12: "no place for the gaps", 13: "no place for the repair", 14: "count past its end",
    15: "output too short", 16: "session or storage damaged", 17: "no whole NACK entries",
    20: "settings line not in its form", 21: "settings line of no known version",
}


def read_bytes(path):
    """The bytes of a file; what cannot be read is said in a line."""
    try:
        return path.read_bytes()
    except OSError as error:
        sys.exit(f"{path}: {error.strerror}")


def read(path):
    return read_bytes(path).decode(errors="replace")


@contextlib.contextmanager
def expected(words):
    """What is read inside may be anything; where it is not what it should be these words are said."""
    try:
        yield
    except (ValueError, LookupError, TypeError, AttributeError, struct.error):
        sys.exit(words)


def datagram(pt, number, timestamp, ssrc, payload=b"", marker=0, csrcs=0, extension=None, padding=0):
    """An RTP packet (RFC 3550, section 5.1). `extension` counts its 32-bit words; `padding` is its count of bytes."""
    first = 0x80 | (0x20 if padding else 0) | (0x10 if extension is not None else 0) | csrcs
    head = bytes([first, marker << 7 | pt]) + number.to_bytes(2, "big") + timestamp.to_bytes(4, "big") + ssrc.to_bytes(4, "big")
    head += bytes(range(4 * csrcs))
    if extension is not None:
        head += b"\xbe\xde" + extension.to_bytes(2, "big") + bytes(4 * extension)
    return head + payload + (bytes(padding - 1) + bytes([padding]) if padding else b"")


def repair_payload(number, payload=b""):
    """RFC 4588, section 4: the original number, then the original payload."""
    return number.to_bytes(2, "big") + payload


def opening(settings):
    fields = FIELDS + (DYNAMIC_FIELDS if settings["mode"] == 2 else [])
    return "open " + " ".join(str(settings[field]) for field in fields)


def hexed(data):
    return data.hex() or "-"


def is_call(line):
    """Whether a line, without its line feed, is answered at all."""
    return line != "" and not line.startswith("#")


def answers(lines):
    """Groups answer lines by call: `state` has as many lines more as its last three fields say."""
    at = 0
    while at < len(lines):
        more = sum(map(int, lines[at].split(" ")[-3:])) if lines[at].startswith("state ") else 0
        yield lines[at:at + 1 + more]
        at += 1 + more


def kind(answer):
    """The answer without its values."""
    words = answer[0].split(" ")
    return answer[0] if words[0] in ("refused", "too", "no") else words[0]


def named(entries):
    """The numbers that the entries of a generic NACK name (RFC 4585, section 6.2.1)."""
    for at in range(0, len(entries), 4):
        first, mask = int.from_bytes(entries[at:at + 2], "big"), int.from_bytes(entries[at + 2:at + 4], "big")
        yield from [first] + [(first + 1 + bit) % 2**16 for bit in range(16) if mask >> bit & 1]


def single(line, answer):
    """The calls that a call equals (02, points 1 and 4), each with its answer: itself, but for NACKs on the wire and bursts."""
    words = line.split(" ")
    if words[0] == "nack_wire" and answer.startswith("wire "):
        yield f"poll_nack {words[1]}", "nack " + " ".join(map(str, named(bytes.fromhex(answer[5:]))))
    elif words[0] == "nack_wire" and answer != "unreadable":
        yield f"poll_nack {words[1]}", answer
    elif words[0] == "burst" and answer.startswith("answers "):
        data, ends = bytes.fromhex(words[3].replace("-", "")), [int(end) for end in words[4:]]
        for start, end, number in zip([0] + ends, ends, answer.split(" ")[1:]):
            yield f"media {words[1]} {hexed(data[start:end])}", {"0": "queued", "255": "dropped"}.get(number, f"refused {number}")
    else:
        yield line, answer


def settings_of(line):
    """The settings of an `open`."""
    return dict(zip(FIELDS + DYNAMIC_FIELDS, map(int, line.split(" ")[1:])))


def split(text):
    """Lines of a trace or of answers; a last line without its line feed is a line all the same."""
    lines = text.split("\n")
    return lines[:-1] if lines[-1] == "" else lines
