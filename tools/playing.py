"""What the cases of tools/cases play on the program: a run to its end, and a run that is talked to."""
import os
import resource
import select
import signal
import socket
import subprocess
import time

DATA = f"{os.path.dirname(os.path.dirname(os.path.realpath(__file__)))}/crates/pgn_rows/data"
# How long a run or an answer is waited for, in seconds: far more than it takes on a machine that is busy.
PATIENCE = 60
# How much of what was found and of what is right is told.
TOLD = 2000


class Wrong(Exception):
    """What a case found otherwise."""


def file_of(name, ending, otherwise=None):
    """What the row of this name has in its file with this ending, which may be missing where there is something otherwise."""
    try:
        with open(f"{DATA}/{name}.{ending}", "rb") as it:
            return it.read()
    except FileNotFoundError:
        if otherwise is None:
            raise Wrong(f"{name} has no file {name}.{ending}") from None
        return otherwise


def told(value):
    text = repr(value)
    return text if len(text) <= TOLD else f"{text[:TOLD]} and {len(text) - TOLD} more"


def same(found, wanted, what):
    if found != wanted:
        raise Wrong(f"{what}: {told(found)}, where {told(wanted)} is right")


def run(program, words, given=b"", **how):
    """Runs the program on an input to its end: its status, its output and what stands on standard error."""
    ran = subprocess.run([program, *words], input=given, stdout=subprocess.PIPE, stderr=subprocess.PIPE, timeout=PATIENCE, **how)
    return ran.returncode, ran.stdout, ran.stderr


def run_into(program, words, given, room):
    """The same where the output is a file that takes so many bytes, and of a write what fits: each write behind them fails."""
    def limit():
        signal.signal(signal.SIGXFSZ, signal.SIG_IGN)
        resource.setrlimit(resource.RLIMIT_FSIZE, (room, room))

    with open(os.memfd_create("output"), "r+b") as out:
        ran = subprocess.run([program, *words], input=given, stdout=out, stderr=subprocess.PIPE, timeout=PATIENCE, preexec_fn=limit,
                             restore_signals=False)
        out.seek(0)
        return ran.returncode, out.read(), ran.stderr


def run_from(program, words, given):
    """The same where the input fails behind the bytes that it gives: a connection that is reset."""
    near, far = socket.socketpair()
    with near, far:
        # What it has not read when it closes makes it a reset; nothing is lost of what it sent before.
        near.sendall(b"unread")
        far.sendall(given)
        far.close()
        ran = subprocess.run([program, *words], stdin=near, stdout=subprocess.PIPE, stderr=subprocess.PIPE, timeout=PATIENCE)
        return ran.returncode, ran.stdout, ran.stderr


def sleeps_of(process):
    """Of each thread of a process how often it has gone to sleep."""
    sleeps = {}
    for thread in os.listdir(f"/proc/{process.pid}/task"):
        with open(f"/proc/{process.pid}/task/{thread}/status") as it:
            sleeps[thread] = next(int(line.split()[1]) for line in it if line.startswith("voluntary_ctxt_switches:"))
    return sleeps


class Talk:
    """A run that is told more only once it has answered. Each call of it ends within PATIENCE, or raises Wrong."""

    def __init__(self, program, words, **how):
        streams = {"stdin": subprocess.PIPE, "stdout": subprocess.PIPE, "stderr": subprocess.PIPE}
        self.ran = subprocess.Popen([program, *words], bufsize=0, **{**streams, **how})
        # What was read and is not yet heard.
        self.kept = b""

    def __enter__(self):
        return self

    def __exit__(self, *_):
        if self.ran.poll() is None:
            self.ran.kill()
        self.ran.wait()
        for it in filter(None, (self.ran.stdin, self.ran.stdout, self.ran.stderr)):
            it.close()

    def tell(self, given):
        until = time.monotonic() + PATIENCE
        while given:
            if not select.select([], [self.ran.stdin], [], max(0, until - time.monotonic()))[1]:
                raise Wrong(f"{told(given)} is not read in {PATIENCE} seconds")
            # So much is taken at once.
            given = given[self.ran.stdin.write(given[:select.PIPE_BUF]):]

    def hear(self, count):
        """The next so many bytes of the output."""
        until = time.monotonic() + PATIENCE
        while len(self.kept) < count:
            piece = self._read(self.ran.stdout, until)
            if not piece:
                raise Wrong(f"the output ends: {told(self.kept)} of {count} bytes")
            self.kept += piece
        heard, self.kept = self.kept[:count], self.kept[count:]
        return heard

    def ended(self):
        """The status and what stands on standard error, of a run that ends while its input goes on, and whose output nobody hears."""
        try:
            return self.ran.wait(PATIENCE), self.ran.stderr.read()
        except subprocess.TimeoutExpired:
            raise Wrong(f"it does not end in {PATIENCE} seconds") from None

    def end(self):
        """Ends the input: the status, what was not heard of the output, and what stands on standard error."""
        self.ran.stdin.close()
        until = time.monotonic() + PATIENCE
        out, errors = self.kept + self._rest(self.ran.stdout, until), self._rest(self.ran.stderr, until)
        return self.ran.wait(PATIENCE), out, errors

    def _read(self, stream, until):
        if not select.select([stream], [], [], max(0, until - time.monotonic()))[0]:
            raise Wrong(f"nothing comes in {PATIENCE} seconds behind {told(self.kept)}")
        return stream.read(1 << 16)

    def _rest(self, stream, until):
        return b"".join(iter(lambda: self._read(stream, until), b""))
