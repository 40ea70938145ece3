#!/usr/bin/env python3
"""A conversation of three seats with the service: bench/talk.py COMMAND..

COMMAND starts the service, with three seats. Each piece is sent once all that the pieces before bring about was told, so that what each
seat is told, and in which order, is no matter of chance. It has to be told all of it, and nobody anything else, and the service to end
with status 0 within 60 seconds. bench/refuse asks for less where a request for memory is refused.
"""
import collections
import os
import select
import struct
import subprocess
import sys
import time

SECONDS = 60
HEAD = struct.Struct("!HH")
END = (None,)  # a sign is a byte, or the end of a client
OVER = HEAD.pack(0, 0)  # the frame of no seat by which a service is over before its input
OUT_OF_MEMORY = b"pgnotify: out of memory\n"


def message(letter, body):
    return letter + struct.pack("!I", 4 + len(body)) + body


def query(text):
    return message(b"Q", text.encode() + b"\0")


def note(seat, payload):
    """A notification of channel c from this seat."""
    return message(b"A", struct.pack("!I", 1000 + seat) + f"c\0{payload}\0".encode())


def ready(state):
    return message(b"Z", state)


def answer(tag, *notes, state=b"I"):
    return message(b"C", tag.encode() + b"\0") + b"".join(notes) + ready(state)


def error(severity, code, text):
    return message(b"E", f"S{severity}\0V{severity}\0C{code}\0M{text}\0\0".encode())


# Of each piece the seat, its bytes, or none where the seat's client ends, and what each seat is told then, which is a turn of it.
TALK = [
    # A notification comes to who sends it with the answer, and to the other listener at once.
    (1, query("LISTEN c"), {1: answer("LISTEN")}),
    (2, query("LISTEN c"), {2: answer("LISTEN")}),
    (2, query("NOTIFY c, 'x'"), {2: answer("NOTIFY", note(2, "x")), 1: note(2, "x")}),
    # In a block nothing is heard and nothing sent, before it is committed. Nothing ever is of one that is rolled back.
    (1, query("BEGIN"), {1: answer("BEGIN", state=b"T")}),
    (1, query("NOTIFY c, 'one'"), {1: answer("NOTIFY", state=b"T")}),
    (2, query("NOTIFY c, 'y'"), {2: answer("NOTIFY", note(2, "y"))}),
    (1, query("COMMIT"), {1: answer("COMMIT", note(2, "y"), note(1, "one")), 2: note(1, "one")}),
    (3, query("BEGIN"), {3: answer("BEGIN", state=b"T")}),
    (3, query("NOTIFY c, 'never'"), {3: answer("NOTIFY", state=b"T")}),
    (3, query("ROLLBACK"), {3: answer("ROLLBACK")}),
    # A query in two frames, and one that is none.
    (3, query("LISTEN c")[:9], {}),
    (3, query("LISTEN c")[9:], {3: answer("LISTEN")}),
    (2, query("LISTEN"), {2: error("ERROR", "42601", "syntax error at byte 6") + ready(b"I")}),
    # A client goes in a block: nothing of it is sent, and the next one in its seat listens to nothing.
    (1, query("BEGIN"), {1: answer("BEGIN", state=b"T")}),
    (1, query("NOTIFY c, 'gone'"), {1: answer("NOTIFY", state=b"T")}),
    (1, b"", {1: END}),
    (1, query("NOTIFY c, 'z'"), {1: answer("NOTIFY"), 2: note(1, "z"), 3: note(1, "z")}),
    # A message of no kind ends a client, and so does a Terminate.
    (3, message(b"!", b""), {3: (*error("FATAL", "08P01", "bad message"), *END)}),
    (3, b"", {}),
    (2, message(b"X", b""), {2: END}),
    (2, b"", {}),
]


def fronts():
    """Of each seat what it has been told behind each of its turns, and before the first."""
    first = {1: [()], 2: [()], 3: [()]}
    for _, _, turns in TALK:
        for seat, turn in turns.items():
            first[seat].append((*first[seat][-1], *turn))
    return first


def told(output):
    """What each seat was told by whole frames, and what stands behind these."""
    signs, at = collections.defaultdict(tuple), 0
    while at + 4 <= len(output):
        seat, size = HEAD.unpack_from(output, at)
        if at + 4 + size > len(output):
            break
        signs[seat] += tuple(output[at + 4 : at + 4 + size]) or END
        at += 4 + size
    return signs, output[at:]


def fault(status, output, errors):
    """What is wrong with a service that has ended so, or nothing: it has told all, or has ended for want of memory, behind whole turns."""
    if status not in (0, 6):
        return f"status {status}"
    if errors != (OUT_OF_MEMORY if status else b""):
        return f"status {status}, and on standard error {errors}"
    signs, rest = told(output.removesuffix(OVER) if status else output)
    for seat, whole in fronts().items():
        if signs.pop(seat, ()) not in (whole if status else whole[-1:]):
            return f"status {status}, and seat {seat} was told something else"
    return "no seat, or half a frame" if signs or rest else None


def converse(command, seconds=SECONDS, **how):
    """The status, output and errors of the service, which has to end in so many seconds."""
    deadline = time.monotonic() + seconds
    pipe = subprocess.PIPE
    with subprocess.Popen(command, bufsize=0, stdin=pipe, stdout=pipe, stderr=pipe, **how) as service:
        try:
            output = ask_all(service, deadline)
            service.stdin.close()
            while more := read(service, deadline):
                output += more
            return service.wait(seconds), output, service.stderr.read()
        except subprocess.TimeoutExpired:
            service.kill()
            raise


def ask_all(service, deadline):
    """Sends piece after piece, until the service is over or has ended, and answers what was told meanwhile."""
    output, due = b"", collections.Counter()
    for seat, asked, turns in TALK:
        try:
            service.stdin.write(HEAD.pack(seat, len(asked)) + asked)
        except BrokenPipeError:
            return output
        due.update({other: len(turn) for other, turn in turns.items()})
        while any(len(told(output)[0][other]) < size for other, size in due.items()):
            more = read(service, deadline)
            output += more
            if not more or 0 in told(output)[0]:
                return output
    return output


def read(service, deadline):
    if not select.select([service.stdout], [], [], max(0, deadline - time.monotonic()))[0]:
        raise subprocess.TimeoutExpired(service.args, 0)
    return os.read(service.stdout.fileno(), 65536)


def main():
    try:
        status, output, errors = converse(sys.argv[1:])
        found = fault(status, output, errors) if status == 0 else f"status {status}"
    except subprocess.TimeoutExpired:
        found = f"not ended after {SECONDS} seconds"
    sys.exit(found and f"bench: a conversation: {found}")


if __name__ == "__main__":
    main()
