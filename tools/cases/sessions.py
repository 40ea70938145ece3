"""The sessions of a run: each on a thread of its own, or all in turns on one where no more can be had; how they wait, and where memory is
refused. And how often the writer of a service is woken."""
import ctypes
import errno
import os
import re
import resource
import struct
import subprocess
import sys
import time

from playing import PATIENCE, Talk, Wrong, run, same, sleeps_of

EXAMPLES = f"{os.path.dirname(os.path.realpath(__file__))}/../../examples"

# A filter of system calls, as linux/filter.h has it: clone and clone3 answer EAGAIN, as where a user may have no more threads.
FILTER = [(0x20, 0, 0, 0), (0x15, 1, 0, 56), (0x15, 0, 1, 435), (0x06, 0, 0, 0x50000 | errno.EAGAIN), (0x06, 0, 0, 0x7FFF0000)]
NO_NEW_PRIVILEGES, SECCOMP = 38, 22


def _without_threads():
    code = ctypes.create_string_buffer(b"".join(struct.pack("HBBI", *it) for it in FILTER))
    prctl = ctypes.CDLL(None).prctl
    if prctl(NO_NEW_PRIVILEGES, 1, 0, 0, 0) or prctl(SECCOMP, 2, struct.pack("HP", len(FILTER), ctypes.addressof(code))):
        raise OSError("threads can't be refused")


def _within(limit):
    """Refuses memory where there is more than so many bytes of addresses."""
    return lambda: resource.setrlimit(resource.RLIMIT_AS, (limit, limit))


def _example(name):
    with open(f"{EXAMPLES}/{name}.scenario", "rb") as given, open(f"{EXAMPLES}/{name}.output", "rb") as output:
        return given.read(), output.read()


def sessions_run_side_by_side(program):
    """Each of eight sessions has a thread of its own, on which it waits: eight threads sleep again and again. A live run has one more."""
    awaits = b"".join(b"\\session s%d 1\n\\await f\n" % at for at in range(8)) + b"\\signal f\n"
    for words, count in (["run"], 8), (["run", "--live"], 9):
        with Talk(program, [*words, "--patience", "1000000000"]) as talk:
            talk.tell(awaits)
            talk.ran.stdin.close()
            first, until = {}, time.monotonic() + PATIENCE
            while True:
                sleeps = sleeps_of(talk.ran)
                first = sleeps | first
                if len(sleeps) == count and sum(sleeps[it] > first[it] + 3 for it in sleeps) >= 8:
                    break
                if time.monotonic() > until or talk.ran.poll() is not None:
                    raise Wrong(f"threads have slept so often at first and at last: {first}, {sleeps}")
                time.sleep(0.01)


def a_drill_is_run(program):
    """A drill of 32 sessions has 32 threads once all have begun. It is over soon, so one of ten drills is enough."""
    most = []
    for _ in range(10):
        with subprocess.Popen([program, "drill", "1", "32", "1000"], stdout=subprocess.DEVNULL) as ran:
            most.append(0)
            while ran.poll() is None:
                most[-1] = max(most[-1], len(os.listdir(f"/proc/{ran.pid}/task")))
        if most[-1] == 32:
            return
    raise Wrong(f"drills had so many threads: {most}")


# Sessions of which each raises its own flag and awaits that of the next one, and the last one that of the first.
RING = b"".join(b"\\session s%d 1\n\\signal f%d\n\\await f%d\n" % (at, at, (at + 1) % 16) for at in range(16))
RING_OUTPUT = b"journal 0\n" + b"".join(
    b"session %d s%d db 1 pid %d\n> \\signal f%d\n+signal 3\n> \\await f%d\n+await 3\nend\n" % (at + 1, at, 1001 + at, at, (at + 1) % 16)
    for at in range(16))


def a_listener_that_awaits_a_flag_is_woken_by_its_raise(program):
    """Of two that notify behind the raise of a flag, the listener that awaited it is the first: the other one has 20,000 lines before that.
    Were the listener not rung, it would mostly be the last: it sleeps on its bell, for up to a second more."""
    rounds, lines = range(10), b"BEGIN\nROLLBACK\n" * 10_000
    listens = b"".join(b"\\await f%d\nNOTIFY d\n\\signal g%d\n" % (at, at) for at in rounds)
    raises = b"".join(b"%s\\signal f%d\n%sNOTIFY d\n\\await g%d\n" % (4 * lines, at, lines, at) for at in rounds)
    given = b"\\session l 1\nLISTEN c\n%s\\session r 1\n%s" % (listens, raises)
    status, output, errors = run(program, ["run", "--patience", "1000000000"], given)
    senders = re.findall(rb"(?m)^xid \d+ session (\d) ", output)
    same((status, errors, len(senders)), (0, b"", 20), "status, errors, how many transactions")
    first = senders[::2].count(b"1")
    if first < 8:
        raise Wrong(f"the listener is the first to notify {first} times of 10")


def sessions_without_threads_take_turns(program):
    """Where no thread can be had, sessions that wait for each other all come to their ends: one after another they would wait in vain."""
    if run(sys.executable, ["-c", "import os; os.fork()"], preexec_fn=_without_threads)[0] == 0:
        raise Wrong("the filter of system calls refuses nothing")
    crossing, output = _example("crossing-flags")
    patient = ["--patience", "1000000000"]
    for given, wanted in (crossing, output), (RING, RING_OUTPUT):
        same(run(program, ["run", *patient], given, preexec_fn=_without_threads), (0, wanted, b""), "status, output, errors")
    status, written, errors = run(program, ["run", "--live", *patient], crossing, preexec_fn=_without_threads)
    same((status, _gathered(written), errors), (0, output, b""), "status, output by session, errors of a live run")


def _gathered(written):
    """What a live run has written, as the output of a run: the lines of each session between its head and its end."""
    lives, rest = {}, []
    for line in written.splitlines(keepends=True):
        number, bar, live = line.partition(b"| ")
        if bar and number.isdigit():
            lives[number] = lives.get(number, b"") + live
        else:
            rest.append(line)
            if line.startswith(b"session "):
                rest.append(lives.get(line.split()[1], b""))
    return b"".join(rest)


# Awaits in vain: two of a listener, and one beside them.
IN_VAIN = b"\\session a 1\nLISTEN c\n\\await f\n\\await f\n\\signal f\n\\session b 1\n\\await g\n\\signal g\n"
IN_VAIN_OUTPUT = b"""journal 0
session 1 a db 1 pid 1001
> LISTEN c
+enlist 3 3
LISTEN
> \\await f
+timeout 500000
> \\await f
+timeout 500000
> \\signal f
+signal 3
end mark 3
session 2 b db 1 pid 1002
> \\await g
+timeout 500000
> \\signal g
+signal 3
end
"""


def patience_is_slept(program):
    """Two awaits of half a second each take a second by the clock, and hardly any of the processor: whoever looks without a sleep, counts
    one that was none, or counts it twice where two sessions sleep together, is done earlier. On threads, and in turns."""
    for how in {}, {"preexec_fn": _without_threads}:
        before, begun = resource.getrusage(resource.RUSAGE_CHILDREN), time.monotonic()
        ended = run(program, ["run", "--patience", "500000"], IN_VAIN, **how)
        took, after = time.monotonic() - begun, resource.getrusage(resource.RUSAGE_CHILDREN)
        worked = after.ru_utime + after.ru_stime - before.ru_utime - before.ru_stime
        same(ended, (0, IN_VAIN_OUTPUT, b""), "status, output, errors")
        if took < 0.95 or worked > 0.4:
            raise Wrong(f"it took {took} seconds, and {worked} of the processor")


OUT_OF_MEMORY = b"pgnotify: out of memory\n"


def who_waits_for_one_that_is_refused_memory_ends(program):
    """One session is refused memory for what its lines show. The other awaits what it would raise behind them, and ends with it, and not
    after some thousand seconds."""
    listens = b"BEGIN\n" + b"".join(b"LISTEN c%d\n" % at for at in range(4096)) + b"COMMIT\n"
    shows = b"\\session a 1\n" + listens + b"SELECT pg_listening_channels()\n" * 2000 + b"\\signal f\n"
    given = shows + b"\\session b 1\n\\await f\n"
    ended = run(program, ["run", "--patience", "1000000000"], given, preexec_fn=_within(96 << 20))
    same(ended, (6, b"", OUT_OF_MEMORY), "status, output, errors")


def _query(text):
    message = text.encode() + b"\0"
    return b"Q" + struct.pack(">I", 4 + len(message)) + message


def _asks(seat, texts):
    """The frames of queries that a seat's client asks."""
    return b"".join(struct.pack(">HH", seat, len(it)) + it for it in map(_query, texts))


def who_sleeps_beside_one_that_is_refused_memory_ends(program):
    """A client of a service asks on until it is refused memory for what its transaction sends. The desk of another one, which has nothing to
    do and sleeps until it is rung, ends with it, and so does the service, while its input goes on."""
    how = {"stdout": subprocess.DEVNULL, "preexec_fn": lambda: resource.setrlimit(resource.RLIMIT_DATA, (64 << 20, 64 << 20))}
    with Talk(program, ["serve", "--seats", "2"], **how) as talk:
        talk.tell(_asks(2, ["LISTEN c"]) + _asks(1, ["BEGIN"]))
        try:
            # No two are equal, so each is kept: some 200 megabytes.
            for at in range(40_000):
                talk.tell(_asks(1, [f"SELECT pg_notify('c{at // 5000}', repeat('x', {at % 5000 + 2999}))"]))
        except BrokenPipeError:
            pass
        same(talk.ended(), (6, OUT_OF_MEMORY), "status, errors")


def a_client_that_is_refused_memory_was_told_whole_answers(program):
    """What a client has sent is kept until there is no memory for it. Then it has been told whole answers to its first queries."""
    def message(letter, body):
        return letter + struct.pack(">I", 4 + len(body)) + body

    query = _query("SELECT pg_notify('c', repeat('x', 7999))")
    column = struct.pack(">H", 1) + b"pg_notify\0" + struct.pack(">IHIhih", 0, 0, 25, -1, -1, 0)
    row = struct.pack(">HI", 1, 0)
    answer = message(b"T", column) + message(b"D", row) + message(b"C", b"SELECT 1\0") + message(b"Z", b"I")
    status, output, errors = run(program, ["wire"], 20_000 * query, preexec_fn=_within(64 << 20))
    count = len(output) // len(answer)
    same((status, output, errors), (6, count * answer, OUT_OF_MEMORY), "status, output, errors")
    if not 0 < count < 20_000:
        raise Wrong(f"{count} answers")


def each_answer_of_a_service_is_written_before_the_next_query(program):
    """A client of a service asks on, 5,000 times, once it was answered: so each answer wakes the writer, who has nothing else to do."""
    query = b"\0\1\0\x0eQ\0\0\0\x0dLISTEN c\0"
    answer = b"C\0\0\0\x0bLISTEN\0Z\0\0\0\x05I"
    with Talk(program, ["serve", "--seats", "1"]) as talk:
        for _ in range(5000):
            talk.tell(query)
            told = b""
            while len(told) < len(answer):
                seat, size = struct.unpack(">HH", talk.hear(4))
                same(seat, 1, "seat")
                told += talk.hear(size)
            same(told, answer, "answer")
        same(talk.end()[0], 0, "status")
