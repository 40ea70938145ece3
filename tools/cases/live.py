"""Sessions that wait, and what a live run writes meanwhile, and where the output fails."""
import collections

from playing import Talk, Wrong, run, run_into, same

# With such a patience, of some thousand seconds, no await gives up.
PATIENT = ["run", "--live", "--patience", "1000000000"]

# Two that listen, of whom one awaits a flag and the other's script is done; and one that sends once both listen.
A = b"\\session a 1\nLISTEN c\n\\signal a\n\\await done\n"
B = b"\\session b 1\nLISTEN c\n\\signal b\n"
S = b"\\session s 1\n\\await a\n\\await b\n"

# It sends, and awaits a flag in vain.
SENDS = b"NOTIFY c, 'x'\n\\await late\n\\signal late\n\\signal done\n"

HEARS = b"> LISTEN c\n+enlist 3 3\nLISTEN\n"
READS = b"+read 3 4\n  3 1003 \"c\", 'x'\n"
A_SHOWS = HEARS + b"> \\signal a\n+signal 3\n", b"> \\await done\n"
B_SHOWS = HEARS + b"> \\signal b\n+signal 3\n" + READS
S_SHOWS = b"> \\await a\n+await 3\n> \\await b\n+await 3\n> NOTIFY c, 'x'\n+publish 3\nNOTIFY\n> \\await late\n"


def _lives(shown):
    """How many bytes a live run has of what a session shows: each line stands behind a number, a bar and a space."""
    return len(shown) + 3 * shown.count(b"\n")


def _by_session(written):
    """The lines of each session, without its number."""
    shown = collections.defaultdict(list)
    for line in written.splitlines(keepends=True):
        number, _, line = line.partition(b"| ")
        shown[number].append(line)
    return {number: b"".join(lines) for number, lines in shown.items()}


def lines_are_written_while_sessions_wait(program):
    """Each line that a session shows is written while all of them wait, each time: also a read in an await and at a script's end."""
    before, awaits = A_SHOWS
    # Session a may be at its await before it is sent something, or come to it then.
    wanted = [{b"1": before + shown, b"2": B_SHOWS, b"3": S_SHOWS} for shown in (awaits + READS, READS + awaits)]
    for _ in range(20):
        with Talk(program, PATIENT) as talk:
            talk.tell(A + B + S + SENDS)
            talk.ran.stdin.close()
            written = talk.hear(_lives(before + awaits + READS + B_SHOWS + S_SHOWS))
        if _by_session(written) not in wanted:
            raise Wrong(f"{written!r} is not what the sessions show")


def who_sleeps_is_woken_by_what_is_sent(program):
    """Listeners that have waited long, in an await or at their end, read soon what is sent: they would else sleep for the rest of a second,
    and read several together. On a busy machine they may be late too, so half of the reads are enough, one of three times."""
    # So many lines take some milliseconds, behind which the listeners sleep on their bells, and nothing like a second.
    sends = 12 * (10_000 * b"UNLISTEN *\n" + b"NOTIFY c\n") + b"\\signal done\n"
    reads = []
    for _ in range(3):
        status, output, errors = run(program, ["run", "--patience", "1000000000"], A + B + S + sends)
        same((status, errors), (0, b""), "status, errors")
        reads.append([shown.count(b"\n+read ") for shown in output.split(b"\nsession ")[1:3]])
        if min(reads[-1]) >= 6:
            return
    raise Wrong(f"they have read so often what was sent twelve times: {reads}")


SELF_NOTIFY = b"\\session a 1\nLISTEN c\nNOTIFY c, 'x'\n"
OUTPUT = b"""1| > LISTEN c
1| +enlist 3 3
1| LISTEN
1| > NOTIFY c, 'x'
1| +publish 3
1| NOTIFY
1| +read 3 4
1|   3 1001 "c", 'x'
journal 1
xid 3 session 1 commit 1
  "c", 'x'
session 1 a db 1 pid 1001
end mark 4
"""
WRITE_FAILED = b"pgnotify: write failed\n"


def each_write_may_fail(program):
    """Wherever the output fails, each four bytes, the run ends with status 5, and what was taken of the text is written."""
    for room in range(0, len(OUTPUT), 4):
        same(run_into(program, ["run", "--live"], SELF_NOTIFY, room), (5, OUTPUT[:room], WRITE_FAILED), f"a run into {room} bytes")
    same(run_into(program, ["run", "--live"], SELF_NOTIFY, len(OUTPUT)), (0, OUTPUT, b""), "a run into as many as it has")


# Each awaits what the other one raises behind an await of its own.
CROSSING = b"""\\session a 1
NOTIFY c
\\signal a1
\\await b1
NOTIFY c
\\signal a2
\\await b2
\\session b 1
\\await a1
NOTIFY c
\\signal b1
\\await a2
\\signal b2
"""


def sessions_run_on_where_a_write_fails(program):
    """Where the first write fails, sessions go on to their end: each would else wait for the other for some thousand seconds."""
    same(run_into(program, PATIENT, CROSSING, 0), (5, b"", WRITE_FAILED), "a run into nothing")
