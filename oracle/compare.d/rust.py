"""Asks the oracle, oracle/build/oracle, many questions at once. Its requests and replies are in oracle/README.md."""
import pathlib
import subprocess

PROGRAM = pathlib.Path(__file__).resolve().parent.parent / "build" / "oracle"

UNCHANGED = "-"
READING = (1, 2, 3, 7)  # the departures that a reading can be put down to
WRITING = (4, 6)  # and a writing
SEVENTEEN = 16  # no departure: with departure 3 on, seventeen words may be open at once
UNCOUNTED = 18  # nor this: the letters are not held against the length of LOCUS


def subsets(departures):
    """Sets of departures, the small ones first."""
    found = [()]
    for d in departures:
        found += [s + (d,) for s in found]
    return sorted(found, key=lambda s: (len(s), s))


def mask(departures):
    return str(sum(1 << d for d in departures))


def read_request(mask, at, data):
    return "R %s %d x%s" % (mask, at, data.hex())


def location_request(text):
    return "L x%s" % text.hex()


def write_request(mask, width, truncate, escape, table):
    return "W %s %d %d %d %s" % (mask, width, truncate, escape, table)


def ask(requests):
    """The reply to each request."""
    if not requests:
        return []
    done = subprocess.run([str(PROGRAM)], input="\n".join(requests) + "\n", stdout=subprocess.PIPE, text=True, check=True)
    replies = done.stdout.split("\n")[:-1]
    if len(replies) != len(requests):
        raise RuntimeError("the oracle gave %d replies to %d requests" % (len(replies), len(requests)))
    for request, reply in zip(requests, replies):
        if reply.startswith("bad"):
            raise RuntimeError("the oracle says %r to %r" % (reply, request))
    return replies
