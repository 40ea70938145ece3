"""Clients of `wire` and of `serve`: a side that fails, who waits for an answer, and what comes in frames."""
import time

from playing import Talk, Wrong, run, run_from, run_into, same, told

READ_FAILED, WRITE_FAILED = b"pgnotify: read failed\n", b"pgnotify: write failed\n"

# `LISTEN c`, `NOTIFY c, 'x'`, and a Terminate: 14, 19 and 5 bytes.
LISTEN, NOTIFY, TERMINATE = b"Q\0\0\0\x0dLISTEN c\0", b"Q\0\0\0\x12NOTIFY c, 'x'\0", b"X\0\0\0\x04"
TALK = LISTEN + NOTIFY + TERMINATE
# C `LISTEN` and Z. C `NOTIFY`, A with 1001, `c` and `x`, and Z.
LISTENED = b"C\0\0\0\x0bLISTEN\0Z\0\0\0\x05I"
NOTIFIED = b"C\0\0\0\x0bNOTIFY\0A\0\0\0\x0c\0\0\x03\xe9c\0x\0Z\0\0\0\x05I"
ANSWERS = LISTENED + NOTIFIED


def a_source_that_fails_at_each_of_its_calls(program):
    """Behind so many bytes of a client a read fails: what it asked before is answered. Behind a Terminate nothing is read."""
    for read in range(len(TALK)):
        answers = ANSWERS if read >= 33 else LISTENED if read >= 14 else b""
        same(run_from(program, ["wire"], TALK[:read]), (4, answers, READ_FAILED), f"the read behind {read} bytes")
    same(run_from(program, ["wire"], TALK), (0, ANSWERS, b""), "a Terminate")


def a_sink_that_fails(program):
    """Behind each third byte of the answers a write fails: what stands before is written. Where there is room for all none fails."""
    for room in range(0, len(ANSWERS), 3):
        same(run_into(program, ["wire"], TALK, room), (5, ANSWERS[:room], WRITE_FAILED), f"the write behind {room} bytes")
    same(run_into(program, ["wire"], TALK, len(ANSWERS)), (0, ANSWERS, b""), "room for all")


def each_answer_is_sent_before_the_next_read(program):
    """A client that asks on only once it was answered."""
    with Talk(program, ["wire"]) as talk:
        for _ in range(3):
            talk.tell(LISTEN)
            same(talk.hear(len(LISTENED)), LISTENED, "the answer")
        same(talk.end(), (0, b"", b""), "status, output, errors")


TWO_SEATS = ["serve", "--seats", "2"]


def _frame(seat, given):
    """A frame: a seat and how many bytes follow, in two bytes each, and these."""
    return seat.to_bytes(2, "big") + len(given).to_bytes(2, "big") + given


def _hear(talk, wanted):
    """Hears frames until each of these seats was told as much as is right for it, in whatever order, and whether it was this."""
    heard = dict.fromkeys(wanted, b"")
    while any(len(heard[seat]) < len(right) for seat, right in wanted.items()):
        head = talk.hear(4)
        seat, size = int.from_bytes(head[:2], "big"), int.from_bytes(head[2:], "big")
        heard[seat] = heard.get(seat, b"") + talk.hear(size)
    same(heard, wanted, "what each seat was told")


def a_service_answers_who_waits(program):
    """A service, which reads ahead, answers all the same before its input ends."""
    with Talk(program, TWO_SEATS) as talk:
        for _ in range(3):
            talk.tell(_frame(1, LISTEN))
            _hear(talk, {1: LISTENED})
        same(talk.end(), (0, b"", b""), "status, output, errors")


# `NOTIFY c`, its answer, and what a listener hears of it, from 1002.
NOTIFY_C, ANSWER, HEARD = b"Q\0\0\0\x0dNOTIFY c\0", b"C\0\0\0\x0bNOTIFY\0Z\0\0\0\x05I", b"A\0\0\0\x0b\0\0\x03\xeac\0\0"


def who_asks_nothing_hears(program):
    """Seat 1 listens and is asked nothing more, while seat 2 notifies again and again, one or two times at once, and anew only once both
    were told. The pause lets seat 1 doze; without it, and behind the first of two, its order with the doze is left to the threads. A ring
    that is lost leaves it asleep."""
    with Talk(program, TWO_SEATS) as talk:
        talk.tell(_frame(1, LISTEN))
        _hear(talk, {1: LISTENED})
        for number in range(10_000):
            count = 1 + number % 2
            if number % 4 < 2:
                time.sleep(0.000_05)
            talk.tell(count * _frame(2, NOTIFY_C))
            _hear(talk, {1: count * HEARD, 2: count * ANSWER})
        same(talk.end(), (0, b"", b""), "status, output, errors")


# What is told of a message by its letter, from its body.
STATES = {b"I": "idle", b"T": "block", b"E": "failed"}


def _fields(body):
    """Of an error: its severity, its code and its text. A field is a letter, a text and a zero byte, and a zero byte ends them."""
    *fields, last, rest = body.split(b"\0")
    fields = {it[:1]: it[1:].decode() for it in fields}
    same((last, rest, fields[b"V"]), (b"", b"", fields[b"S"]), "the end of fields, their second severity")
    return f"{fields[b'S']} {fields[b'C']} {fields[b'M']}"


def _notification(body):
    channel, payload, rest = body[4:].split(b"\0")
    same(rest, b"", "behind a notification")
    return f"{int.from_bytes(body[:4], 'big')} {channel.decode()} '{payload.decode()}'"


def _text(body):
    text, rest = body.split(b"\0")
    same(rest, b"", "behind a text")
    return text.decode()


READERS = {
    b"A": _notification,
    b"C": _text,
    b"D": lambda body: f"row {body[6:].decode()}",
    b"E": _fields,
    b"T": lambda body: f"column {body[2:].partition(bytes(1))[0].decode()}",
    b"Z": lambda body: STATES[body],
}


def _messages(given):
    """The messages that these bytes are, as words: a message is a letter, its length, which counts itself, in four bytes, and a body."""
    words = []
    while given:
        size = int.from_bytes(given[1:5], "big")
        if not 4 <= size < len(given) or given[:1] not in READERS:
            raise Wrong(f"no message: {told(given)}")
        try:
            words.append(READERS[given[:1]](given[5:1 + size]))
        except (KeyError, ValueError) as why:
            raise Wrong(f"no body of a message: {told(given[:1 + size])}") from why
        given = given[1 + size:]
    return words


def _by_seat(output):
    """What each seat was told, in words: the frames' bytes up to an empty one, in whatever pieces, are those of a client."""
    words, pieces = {}, {}
    while output:
        seat, size = int.from_bytes(output[:2], "big"), int.from_bytes(output[2:4], "big")
        if len(output) < 4 + size:
            raise Wrong(f"no frame: {told(output)}")
        pieces.setdefault(seat, []).append(output[4:4 + size])
        if not size:
            words.setdefault(seat, []).extend([*_messages(b"".join(pieces.pop(seat))), "end"])
        output = output[4 + size:]
    for seat, parts in pieces.items():
        words.setdefault(seat, []).extend(_messages(b"".join(parts)))
    return {seat: ", ".join(it) for seat, it in words.items()}


def _answers(ran, wanted, status=0, errors=b""):
    """Whether a run ended so, and told each seat this."""
    same((_by_seat(ran[1]), ran[0], ran[2]), ({seat: it for seat, it in wanted.items() if it}, status, errors), "told, status, errors")


def _asks(seat, text):
    """A frame with a Query."""
    return _frame(seat, b"Q" + (5 + len(text)).to_bytes(4, "big") + text + b"\0")


ONE_LISTENS, ONE_LISTENED, ONE_ENDS = b"\0\x01\0\x0eQ\0\0\0\x0dLISTEN c\0", "LISTEN, idle", b"\0\x01\0\0"
ONE_NOTIFIES, ONE_NOTIFIED = b"\0\x01\0\x13Q\0\0\0\x12NOTIFY c, 'x'\0", "NOTIFY, 1001 c 'x', idle"

# Frames, and what seat 1 and seat 2 are told.
ASKED = [
    # No byte.
    (b"", "", ""),
    # Two clients at seat 1, one after another, and one at seat 2 amid them. What is left of a client behind its Terminate is passed over.
    (ONE_LISTENS + _asks(2, b"LISTEN d") + ONE_NOTIFIES + b"\0\x01\0\x07X\0\0\0\x04Q\0" + ONE_ENDS
     + _asks(2, b"NOTIFY d, 'x'") + b"\0\x02\0\0" + ONE_LISTENS,
     f"{ONE_LISTENED}, {ONE_NOTIFIED}, end, {ONE_LISTENED}", "LISTEN, idle, NOTIFY, 1002 d 'x', idle, end"),
    # A client that goes on behind what is settled, behind a garbled text, and behind what takes two lines.
    (_asks(1, b"SELECT 1") + b"\0\x01\0\x07Q\0\0\0\x06\0\0" + _asks(1, b"DISCARD ALL") + ONE_LISTENS,
     "column ?column?, row 1, SELECT 1, idle, ERROR 08P01 invalid message format, idle, DISCARD ALL, idle, LISTEN, idle", ""),
    # Messages that are cut by frames: in their head, at its end, in their text, and before their last byte.
    (b"\0\x01\0\x03Q\0\0\0\x01\0\x02\0\x0d\0\x01\0\x04LIST\0\x01\0\x04EN c\0\x01\0\x02\0Q\0\x01\0\x12\0\0\0\x12NOTIFY c, 'x'\0",
     f"{ONE_LISTENED}, {ONE_NOTIFIED}", ""),
    # A client that ends without a byte, and one that ends within a message.
    (ONE_ENDS + ONE_LISTENS, f"end, {ONE_LISTENED}", ""),
    (b"\0\x01\0\x03Q\0\0" + ONE_ENDS + ONE_LISTENS, f"FATAL 08P01 bad message, end, {ONE_LISTENED}", ""),
    # A Query of the greatest length, in two frames.
    (_frame(1, b"Q\0\x01\0\x05LISTEN c" + 60_000 * b" ") + _frame(1, 5_528 * b" " + b"\0") + ONE_NOTIFIES,
     f"{ONE_LISTENED}, {ONE_NOTIFIED}", ""),
    # The input ends inside a message.
    (ONE_LISTENS + b"\0\x01\0\x08Q\0\0\0\x0dLIS", ONE_LISTENED, ""),
]

# What a client is refused for: a letter, a length of a Query that is too small or too great, and one of a Terminate.
BAD = [b"Z\0\0\0\x04", b"Q\0\0\0\x04", b"Q\0\x01\0\x06", b"X\0\0\0\x05"]
# The letters of the extended protocol: Parse, Bind, Execute, Describe, Close, Sync, Flush and FunctionCall.
EXTENDED = [b"P", b"B", b"E", b"D", b"C", b"S", b"H", b"F"]
# What ends a service, 18 bytes behind its begin: a head and a body that are cut, and seats that are none.
NO_FRAMES = [b"\0\x01\0", b"\0\x01\0\x06Q\0\0\0\x05", b"\0\x03\0\0", b"\0\0\0\0"]


def what_seats_are_asked(program):
    """What comes in frames is answered as if each client of a seat had sent it alone."""
    for given, one, two in ASKED:
        _answers(run(program, TWO_SEATS, given), {1: one, 2: two})


def what_clients_are_refused_for(program):
    """A client is told at once why it is refused, and of what it sends behind that nothing is looked at. The next one is served."""
    refusals = [(it, "FATAL 08P01 bad message") for it in BAD]
    refusals += [(it, "FATAL 0A000 the extended protocol is not supported") for it in EXTENDED]
    for given, why in refusals:
        given = _frame(1, given) + ONE_LISTENS
        _answers(run(program, TWO_SEATS, given), {1: f"{why}, end"})
        _answers(run(program, TWO_SEATS, given + ONE_ENDS + ONE_LISTENS), {1: f"{why}, end, {ONE_LISTENED}"})


def what_is_no_frame(program):
    """What came before it was answered."""
    for given in NO_FRAMES:
        _answers(run(program, TWO_SEATS, ONE_LISTENS + given), {1: ONE_LISTENED}, 12, b"pgnotify: byte 18: bad frame\n")


def the_source_fails(program):
    """Behind so many bytes of frames a read fails: those that came whole are answered."""
    for read in (0, 1, 4, 17, 18, 21, 22, 35, 36):
        answers = ", ".join(read // 18 * [ONE_LISTENED])
        _answers(run_from(program, TWO_SEATS, (2 * ONE_LISTENS)[:read]), {1: answers}, 4, READ_FAILED)


def one_query_more_than_may_notify(program):
    """Each of 64 seats may send 16,383 notifications, for all of its clients; what sends none goes on."""
    spent = "FATAL 53400 too many notifications, end"
    given = 16_384 * ONE_NOTIFIES + ONE_LISTENS + ONE_ENDS + ONE_LISTENS + ONE_NOTIFIES + ONE_ENDS + _asks(2, b"NOTIFY d")
    _answers(run(program, ["serve"], given), {1: f"{16_383 * 'NOTIFY, idle, '}{spent}, {ONE_LISTENED}, {spent}", 2: "NOTIFY, idle"})
