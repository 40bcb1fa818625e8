"""Refuses system calls of a program that is started: one of them, by its number among those of its name.
It stands on the filters of Linux on x86-64 that ask a supervisor, and needs no right of the caller."""

import contextlib
import ctypes
import errno
import os
import select
import socket
import struct
import threading

EPOLL_CTL = 233
ACCEPT4 = 288

# prctl(2), seccomp(2) and its structures
SECCOMP = 317
PR_SET_NO_NEW_PRIVS = 38
SET_MODE_FILTER = 1
NEW_LISTENER = 8
ALLOW = 0x7FFF0000
ASK = 0x7FC00000
X86_64 = 0xC000003E
RECEIVE = 0xC0502100
SEND = 0xC0182101
CONTINUE = 1

LIBC = ctypes.CDLL(None, use_errno=True)


def asks_for(call):
    """A filter that asks the supervisor at this call, and allows all others."""
    rows = (
        (0x20, 0, 0, 4),  # the architecture
        (0x15, 0, 2, X86_64),
        (0x20, 0, 0, 0),  # the number of the call
        (0x15, 1, 0, call),
        (0x06, 0, 0, ALLOW),
        (0x06, 0, 0, ASK),
    )
    return b"".join(struct.pack("HBBI", *row) for row in rows), len(rows)


def install(call):
    """Sets the filter for this process, and gives the descriptor of its supervisor."""
    code, count = asks_for(call)
    kept = ctypes.create_string_buffer(code)
    program = struct.pack("HxxxxxxP", count, ctypes.addressof(kept))
    if LIBC.prctl(PR_SET_NO_NEW_PRIVS, 1, 0, 0, 0) != 0:
        raise OSError(ctypes.get_errno(), "no_new_privs")
    listener = LIBC.syscall(SECCOMP, SET_MODE_FILTER, NEW_LISTENER, program)
    if listener < 0:
        raise OSError(ctypes.get_errno(), "a filter of system calls")
    return listener


def is_gone():
    """Whether the last question was taken back, as where a signal interrupts the call. It is asked again."""
    return ctypes.get_errno() in (errno.ENOENT, errno.EINTR)


def answer(listener, refused):
    """Answers each question until the program ends: those whose number is among the refused ones find no
    memory. A question that was taken back does not count."""
    questions = select.poll()
    questions.register(listener, select.POLLIN)
    number = 1
    while True:
        [(_, events)] = questions.poll()
        if not events & select.POLLIN:
            return
        question = ctypes.create_string_buffer(80)
        if LIBC.ioctl(listener, ctypes.c_ulong(RECEIVE), question) != 0:
            if is_gone():
                continue
            return
        name = struct.unpack_from("Q", question)[0]
        error, flags = (-errno.ENOMEM, 0) if number in refused else (0, CONTINUE)
        reply = struct.pack("QqiI", name, 0, error, flags)
        if LIBC.ioctl(listener, ctypes.c_ulong(SEND), reply) == 0:
            number += 1
        elif not is_gone():
            return


@contextlib.contextmanager
def refusing(call, refused):
    """Words for a process that is started, of which these calls are refused, counted from 1."""
    ours, theirs = socket.socketpair()

    def begin():
        listener = install(call)
        socket.send_fds(theirs, [b"x"], [listener])
        os.close(listener)

    def supervise():
        _, listeners, _, _ = socket.recv_fds(ours, 1, 1)
        if listeners:
            answer(listeners[0], refused)

    supervisor = threading.Thread(target=supervise, daemon=True)
    supervisor.start()
    try:
        yield {"preexec_fn": begin}
    finally:
        ours.close()
        theirs.close()
