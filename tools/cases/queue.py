"""The queue: who is woken, pages that are used again, where the tail stands, bells, and two sessions that share it for long."""
import re
import struct
import time

from playing import Talk, Wrong, run, same, sleeps_of

LARGEST = "SELECT pg_notify('{}', repeat('x', 7999))"

# How long a session waits so that another one reads meanwhile, in looks: a tenth of a second.
PAUSE = 100_000

# How often a run is tried that a busy machine may delay by more than a pause.
TRIES = 5


def _output_of(program, words, scenario):
    status, output, errors = run(program, words, scenario.encode())
    same((status, errors), (0, b""), "status, errors")
    return output.decode()


def _lines_of(output, name):
    """What a session did, line by line."""
    return output.split(f" {name} db ")[1].split("\nsession ")[0].splitlines()[1:]


def _reads(output, name):
    """The reads of a session: from, to, and how many notifications."""
    reads = []
    for line in _lines_of(output, name):
        if line.startswith("+read "):
            reads.append((*map(int, line.split()[1:]), 0))
        elif re.match(r"  \d+ \d+ ", line):
            reads[-1] = (*reads[-1][:2], reads[-1][2] + 1)
    return reads


def _listener(name, db, pauses):
    """A session that listens on c and waits for so many pauses."""
    return f"\\session {name} {db}\nLISTEN c\n\\signal {name}\n" + "\\await never\n" * pauses


def _sender(name, db, flags, lines):
    """A session that awaits flags, each again and again, and waits behind each of its lines for a pause."""
    awaits = "".join(f"\\await {it}\n" * 24 for it in flags)
    return f"\\session {name} {db}\n{awaits}" + "".join(f"{it}\n\\await never\n" for it in lines)


def _are_read(program, words, scenario, wanted):
    """That the sessions make these reads, in a run that is not delayed."""
    for _ in range(TRIES):
        output = _output_of(program, ["run", "--patience", str(PAUSE), *words], scenario)
        found = {name: _reads(output, name) for name in wanted}
        if found == wanted:
            return output
    raise Wrong(f"reads: {found!r}, where {wanted!r} is right")


def a_listener_reads_where_it_is_to_be_woken(program):
    """A listener is woken by its channels and by another one of the same bits, by its database alone, four pages behind, and once each time."""
    scenario = _listener("l", 1, 24) + _listener("o", 2, 24)
    # Each largest notification takes a page. That of another database wakes who is four pages behind.
    lines = [LARGEST.format("c")] * 6
    scenario += _sender("far", 3, ["l", "o"], lines) + "\\signal far\n"
    # The bytes of 1 and 2 add up to that of c.
    lines = ["NOTIFY d", "NOTIFY c", "NOTIFY d", "NOTIFY c", 'NOTIFY "12"', "NOTIFY c"]
    scenario += _sender("near", 1, ["far"], lines) + "\\signal near\n"
    scenario += _sender("other", 2, ["near"], ["NOTIFY c"]) + "\\signal never\n"
    _are_read(program, ["--pages", "9"], scenario, {
        "l": [(3, 8, 0), (8, 11, 1), (11, 13, 1), (13, 14, 0), (14, 15, 1), (15, 16, 0)],
        "o": [(3, 8, 0), (8, 16, 1)],
    })


def pages_are_used_again(program):
    """A listener frees a queue of two pages again and again by its reads, in both formats."""
    rounds = 100
    scenario = "\\session l 1\nLISTEN c\n\\signal r0\n"
    scenario += "".join(f"\\await s{it}\n\\signal r{it}\n" for it in range(1, rounds + 1))
    scenario += "\\session s 1\n\\await r0\n"
    scenario += "".join(f"{LARGEST.format('c')}\n\\signal s{it}\n\\await r{it}\n" for it in range(1, rounds + 1))
    for version in ("1", "2"):
        output = _output_of(program, ["run", "--pages", "2", "--format", version], scenario)
        same(_reads(output, "l"), [(it, it + 1, 1) for it in range(3, rounds + 3)], f"reads in format {version}")


def the_tail_moves_without_a_full_queue(program):
    """The tail moves to where the last listener stands, by a commit that enters a page whose number is a multiple of four; a flag keeps the
    greatest number."""
    four, last = (LARGEST.format("c") + "\n") * 4, LARGEST.format("c")
    scenario = "\\session l 1\nLISTEN c\nBEGIN\n\\signal up\n\\await four\nCOMMIT\nBEGIN\n\\signal read\n\\await late\nCOMMIT\n"
    scenario += f"\\session s 1\n\\signal f\n\\await up\n{four}\\signal four\n\\await read\n{last}\n\\signal f\n\\signal five\n"
    scenario += "\\session n 1\n\\await five\nLISTEN c\n\\await f\n\\signal late\n"
    output = _output_of(program, ["run"], scenario)
    same(_reads(output, "l"), [(3, 7, 4), (7, 8, 1)], "the listener's reads")
    same([it for it in _lines_of(output, "n") if it.startswith("+")], ["+await 8", "+enlist 7 8", "+await 8", "+signal 8"], "the new listener")


def two_sessions_share_two_pages(program):
    """Two listeners that send at the same time, thousands of times, receive all that either has committed, each once and in order."""
    times, text = 4000, "x" * 100
    notes = f"NOTIFY c, '{text}'\n" * times
    scenario = f"\\session a 1\nLISTEN c\n\\signal a\n\\await b\n{notes}\\session b 1\nLISTEN c\n\\signal b\n\\await a\n{notes}"
    output = _output_of(program, ["run", "--pages", "2"], scenario)
    journal = re.findall(r"^xid (\d+) session (\d) (\w+) ", output, re.M)
    same(len(journal), 2 * times, "transactions")
    sent = [(xid, str(1000 + int(session))) for xid, session, fate in journal if fate == "commit"]
    same({pid for _, pid in sent}, {"1001", "1002"}, "who has sent some")
    for name in "ab":
        received = [tuple(it.split()[:2]) for it in _lines_of(output, name) if it.startswith("  ")]
        same(received == sent, True, f"{name} has received what was committed")


class _Service:
    """A service of two seats, by its frames."""

    def __init__(self, talk):
        self.talk, self.heard = talk, {1: b"", 2: b""}

    def ask(self, seat, text):
        message = text.encode() + b"\0"
        message = b"Q" + struct.pack(">I", len(message) + 4) + message
        self.talk.tell(struct.pack(">HH", seat, len(message)) + message)

    def hear(self, seat, wanted):
        """That the client of a seat is told just this next."""
        while len(self.heard[seat]) < len(wanted):
            told, size = struct.unpack(">HH", self.talk.hear(4))
            self.heard[told] += self.talk.hear(size)
        found, self.heard[seat] = self.heard[seat][:len(wanted)], self.heard[seat][len(wanted):]
        same(found, wanted, f"what seat {seat} is told")

    def is_done(self):
        same((self.talk.end(), self.heard), ((0, b"", b""), {1: b"", 2: b""}), "status, output, errors, and what is told besides")


READY = b"Z\0\0\0\5I"
LISTENS = b"C\0\0\0\x0bLISTEN\0" + READY
NOTIFIES = b"C\0\0\0\x0bNOTIFY\0" + READY
# A notification of seat 2 on the channel c, without a payload.
NOTE = b"A\0\0\0\x0b" + struct.pack(">I", 1002) + b"c\0\0"


def no_ring_is_lost(program):
    """A client that asks nothing is told of each notification before the next one is sent, also where its desk dozes first; a ring that is
    lost leaves the desk asleep for ever."""
    with Talk(program, ["serve", "--seats", "2"]) as talk:
        service = _Service(talk)
        service.ask(1, "LISTEN c")
        service.hear(1, LISTENS)
        for turn in range(10_000):
            # Longer and longer pauses, up to one in which the desk comes to doze: else the order is left to the threads.
            until = time.perf_counter_ns() + turn % 100 * 1000
            while time.perf_counter_ns() < until:
                pass
            service.ask(2, "NOTIFY c")
            service.hear(2, NOTIFIES)
            service.hear(1, NOTE)
        service.is_done()


def another_channel_rings_nobody(program):
    """What is sent on another channel leaves a listener's desk asleep, and what is sent on its own wakes it each time."""
    times = 1000
    with Talk(program, ["serve", "--seats", "2"]) as talk:
        service = _Service(talk)
        service.ask(1, "LISTEN c")
        service.hear(1, LISTENS)
        slept = []
        for channel, note in (("c", NOTE), ("d", b"")):
            before = sleeps_of(talk.ran)
            for _ in range(times):
                service.ask(2, f"NOTIFY {channel}")
                service.hear(2, NOTIFIES)
                service.hear(1, note)
            slept.append(min(count - before[it] for it, count in sleeps_of(talk.ran).items()))
        service.is_done()
    if slept[0] < times // 4 or slept[1] > times // 40:
        raise Wrong(f"the thread that slept least has slept {slept} times in {times} notifications on its channel and on another one")
