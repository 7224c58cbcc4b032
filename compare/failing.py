#!/usr/bin/env python3
"""failing.py PROGRAM SHEET ANSWER: what the program in this file does where its input can't be read to the end or its
output can't be written, and that what comes or goes in parts is whole. SHEET is a file with a good sheet, and ANSWER
one with its answer. Ends at the first thing that is not as it should be."""
import errno
import os
import resource
import signal
import socket
import struct
import subprocess
import sys
import tempfile
import time
import tty

FILE, SHEET, ANSWER = sys.argv[1], open(sys.argv[2], "rb").read(), open(sys.argv[3], "rb").read()
PROGRAM = os.path.basename(FILE)
UNREAD = f"{PROGRAM}: the sheet could not be read\n".encode()
UNWRITTEN = f"{PROGRAM}: the answer could not be written\n".encode()
REFUSED = b"refused 6 0\n"


def start(**given):
    return subprocess.Popen([FILE], stderr=subprocess.PIPE, **given)


def hold(what, process, out, told, written=None):
    """The process ends with these bytes on its standard output and on standard error."""
    said, error = process.communicate()
    said = written() if written else said or b""
    if (said, error) != (out, told):
        sys.exit(f"programs: FAILED: {PROGRAM}, {what}: writes {said[:200]!r} and tells {error!r}")


def interrupt(process):
    """Stops the process and lets it go on, some times. With a time limit on the socket that it waits for, as here,
    Linux then ends its call by EINTR, or with the part that was moved."""
    for _ in range(5):
        time.sleep(0.02)
        os.kill(process.pid, signal.SIGSTOP)
        os.waitid(os.P_PID, process.pid, os.WSTOPPED | os.WEXITED | os.WNOWAIT)
        os.kill(process.pid, signal.SIGCONT)


# ---- input


def reset(sent):
    """A socket that gives these bytes, and then fails: its other end is closed with a byte unread."""
    end, other = socket.socketpair()
    other.sendall(sent)
    end.sendall(b"x")
    other.close()
    return end.detach(), errno.ECONNRESET


def hung_up(sent):
    """A terminal's other side, which gives these bytes, and then fails: nobody has the terminal open any more."""
    end, terminal = os.openpty()
    tty.setraw(terminal)
    os.write(terminal, sent)
    os.close(terminal)
    return end, errno.EIO


def in_pieces(sent, size):
    """A socket that gives these bytes so many at a read."""
    end, other = socket.socketpair(socket.AF_UNIX, socket.SOCK_SEQPACKET)
    for i in range(0, len(sent), size):
        other.send(sent[i : i + size])
    other.close()
    return end.detach()


def read_until_it_fails(end):
    got = b""
    while True:
        try:
            part = os.read(end, 65536)
        except OSError as failed:
            return got, failed.errno
        if part == b"":
            return got, 0
        got += part


def try_reading():
    out = {"stdout": subprocess.PIPE}
    hold("on a file", start(stdin=open(sys.argv[2], "rb"), **out), ANSWER, b"")
    hold("on a directory", start(stdin=os.open("compare", os.O_RDONLY), **out), b"", UNREAD)
    hold("with no standard input", start(preexec_fn=lambda: os.close(0), **out), b"", UNREAD)
    for failing in reset, hung_up:
        end, error = failing(SHEET)
        if read_until_it_fails(end) != (SHEET, error):
            sys.exit(f"programs: FAILED: {failing.__name__} doesn't give its bytes and then fail")
        hold(f"{failing.__name__} after a whole sheet", start(stdin=failing(SHEET)[0], **out), b"", UNREAD)
        hold(f"{failing.__name__} before the first byte", start(stdin=failing(b"")[0], **out), b"", UNREAD)
    hold("reset after a part", start(stdin=reset(SHEET[: len(SHEET) // 2])[0], **out), b"", UNREAD)
    hold("reset after 65,535 bytes", start(stdin=reset(b"x" * 65535)[0], **out), b"", UNREAD)
    hold("reset after all that it reads", start(stdin=reset(b"x" * 65536)[0], **out), REFUSED, b"")
    hold("in pieces", start(stdin=in_pieces(SHEET, 5), **out), ANSWER, b"")
    end, other = socket.socketpair()
    end.setsockopt(socket.SOL_SOCKET, socket.SO_RCVTIMEO, struct.pack("ll", 600, 0))
    other.sendall(SHEET[:9])
    process = start(stdin=end, **out)
    end.close()
    interrupt(process)
    if process.poll() is None:
        other.sendall(SHEET[9:])
    other.close()
    hold("with reads interrupted", process, ANSWER, b"")


# ---- output


def long_sheet():
    """16 sums of 32 symbols each, whose answer has some 18,000 bytes."""
    sheet, at = b"", 0
    for root in range(16):
        for i in range(32):
            sheet += b"Sym,%s\r\n" % (b"s%02d%02d" % (root, i)).ljust(32, b"x")
        for i in range(31):
            sheet += b"Add,%d,%d\r\n" % (at + 31 + i if i else at, at + 1 + i)
        at += 63
        sheet += b"Root,%d\r\n" % (at - 1)
    return sheet


def given(sheet):
    file = tempfile.TemporaryFile()
    file.write(sheet)
    file.seek(0)
    return file


def no_more_than(count):
    signal.signal(signal.SIGXFSZ, signal.SIG_IGN)
    resource.setrlimit(resource.RLIMIT_FSIZE, (count, count))


def try_writing():
    full, sheet = os.open("/dev/full", os.O_WRONLY), long_sheet()
    answer = subprocess.run([FILE], stdin=given(sheet), stdout=subprocess.PIPE).stdout
    if answer.count(b"\n") != 16 or len(answer) < 16000:
        sys.exit(f"programs: FAILED: {PROGRAM} answers the long sheet by {answer[:200]!r}")
    for what, text in ("an answer", SHEET), ("a refusal", b"x"), ("many lines", sheet):
        hold(f"{what} on a full device", start(stdin=given(text), stdout=full), b"", UNWRITTEN)
        process = start(stdin=given(text), preexec_fn=lambda: os.close(1))
        hold(f"{what} with no standard output", process, b"", UNWRITTEN)
    unread, end = os.pipe()
    os.close(unread)
    ignored = lambda: signal.signal(signal.SIGPIPE, signal.SIG_IGN)
    process = start(stdin=given(sheet), stdout=end, preexec_fn=ignored)
    hold("on a pipe that nobody reads", process, b"", UNWRITTEN)
    for count in 10, 2000:
        file = tempfile.NamedTemporaryFile()
        process = start(stdin=given(sheet), stdout=file, preexec_fn=lambda: no_more_than(count))
        hold(f"where {count} bytes fit", process, answer[:count], UNWRITTEN, lambda: open(file.name, "rb").read())
    end, other = socket.socketpair()
    end.setsockopt(socket.SOL_SOCKET, socket.SO_SNDTIMEO, struct.pack("ll", 600, 0))
    end.setsockopt(socket.SOL_SOCKET, socket.SO_SNDBUF, 4096)
    process = start(stdin=given(sheet), stdout=end)
    end.close()
    interrupt(process)
    got = read_until_it_fails(other.fileno())[0]
    hold("with writes interrupted", process, answer, b"", lambda: got)


# a program that waits for ever is ended with this, since its input and output are closed then
signal.alarm(120)
try_reading()
try_writing()
