"""Runs: who is woken, who holds a queue of two pages, many notifications, and an input and an output that fail."""
from playing import Wrong, file_of, run, run_from, run_into, same


def _counts(text, parts, counts):
    """Whether these parts stand in a text, one behind another, and others so often each."""
    at = 0
    for part in parts:
        found = text.find(part, at)
        if found < 0:
            raise Wrong(f"{part!r} does not stand behind {text[max(0, at - 200):at]!r}")
        at = found + len(part)
    same({part: text.count(part) for part in counts}, counts, "how often each stands")


def _shows(program, words, scenario, parts, counts):
    """Whether a run is done, and its output has these parts so."""
    status, output, errors = run(program, words, scenario)
    same((status, errors), (0, b""), "status, errors")
    _counts(output, parts, counts)


# A listener waits while another session notifies on a channel to which it does not listen, sixteen times, and then on its own. No flag
# tells it meanwhile of the sixteen, since who finds one reads.
ONE_CHANNEL = b"""\
\\session l 1
LISTEN c
\\signal up
\\await s1
\\session s 1
\\await up
""" + 16 * b"NOTIFY d, 'x'\n" + b"""\
NOTIFY c, 'y'
\\signal s1
"""


def a_listener_is_woken_by_its_channel_alone(program):
    """Where the listener reads is free, but not before the last notification."""
    parts = [b"> \\signal up\n", b"+read 3 20\n  19 1002 \"c\", 'y'\n", b"end mark 20\n"]
    _shows(program, ["run"], ONE_CHANNEL, parts, {b"+read ": 1})


PAGE = b"SELECT pg_notify('d', repeat('x', 7999))\n"
# Two listeners of a channel, one of another database, wait while notifications on another channel fill two pages.
FULL = b"""\
\\session l 1
LISTEN c
\\signal l1
\\await full
\\signal l2
\\session o 2
LISTEN c
\\signal o1
\\await full
\\signal o2
\\session s 1
\\await l1
\\await o1
""" + 3 * PAGE + b"""\
\\signal full
\\await l2
\\await o2
""" + PAGE


def a_full_queue_wakes_all(program):
    """The third notification meets a full queue, and wakes both listeners: they read, and receive nothing. Whether one of them waits
    already when it is woken is free."""
    parts = [b"+read 3 6\n", b"> \\signal l2\n", b"+read 3 6\n", b"> \\signal o2\n",
             b"+full 5 queued 0 head 2 floor 3 page 0 holder 1\n", b"+publish 6\n"]
    _shows(program, ["run", "--pages", "2"], FULL, parts, {b"+read 3 6\n": 2, b"+read 3 6\n  ": 0})


# A listener waits, and another session sends notifications of which two fill a queue of two pages.
SLOW = b"\\session l 1\nLISTEN c\n\\signal up\n\\await done\n\\session s 1\n\\await up\n" \
    + 3000 * PAGE.replace(b"'d'", b"'c'") + b"\\signal done\n"


def a_listener_behind_two_pages(program):
    """Wherever the sender met a full queue, the listener held it. How many are committed is free."""
    parts = [b"journal 3000\n", b"\nend mark 3003\n"]
    _shows(program, ["run", "--pages", "2"], SLOW, parts, {b" holder none\n": 0, b" holder 2\n": 0})


def ten_thousand_notifications(program):
    """A listener sends them at once. Where they differ it receives each, and where they are one it receives one."""
    for committed, notes in ((10_000, range(10_000)), (1, 10_000 * [7])):
        block = b"".join(b"NOTIFY c, '%d'\n" % number for number in notes)
        parts = [b"journal 1\nxid 3 session 1 commit %d\n" % committed, b"\n+read 3 4\n"]
        _shows(program, ["run"], b"\\session a 1\nLISTEN c\nBEGIN\n" + block + b"COMMIT\n", parts,
               {b"'\nNOTIFY\n": 10_000, b"\n  3 1001 \"c\", '": committed, b"\n  3 1001 \"c\", '7'\n": 1})


# Each of two sessions waits for the other one.
CROSSING_FLAGS = file_of("crossing-flags", "input")
CROSSING_FLAGS_OUTPUT = file_of("crossing-flags", "output")


def each_read_fails_in_turn(program):
    """Behind each fourth byte of an input, which has 184, a read fails: nothing is written."""
    for read in range(0, len(CROSSING_FLAGS) + 1, 4):
        same(run_from(program, ["run"], CROSSING_FLAGS[:read]), (4, b"", b"pgnotify: read failed\n"), f"the read behind {read} bytes")


def each_write_fails_in_turn(program):
    """Behind each seventh byte of an output a write fails: what stands before is written. Where there is room for all none fails."""
    for room in range(0, len(CROSSING_FLAGS_OUTPUT), 7):
        same(run_into(program, ["run"], CROSSING_FLAGS, room), (5, CROSSING_FLAGS_OUTPUT[:room], b"pgnotify: write failed\n"),
             f"the write behind {room} bytes")
    same(run_into(program, ["run"], CROSSING_FLAGS, len(CROSSING_FLAGS_OUTPUT)), (0, CROSSING_FLAGS_OUTPUT, b""), "room for all")


def too_large(program):
    """An input of one byte more than the most is refused."""
    same(run(program, ["run"], 16_777_217 * b"\n"), (3, b"", b"pgnotify: input is larger than 16777216 bytes\n"), "one byte more")
