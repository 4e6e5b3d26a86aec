"""Threads of a service that are stopped one by one, while its others go on."""
import contextlib
import ctypes
import os

PTRACE_SEIZE, PTRACE_INTERRUPT, PTRACE_DETACH = 0x4206, 0x4207, 17
WALL = 0x40000000  # waits for threads of other processes too

LIBC = ctypes.CDLL(None, use_errno=True)
LIBC.ptrace.argtypes = [ctypes.c_long, ctypes.c_int, ctypes.c_void_p, ctypes.c_void_p]
LIBC.ptrace.restype = ctypes.c_long


def traced(request, thread):
    """Asks the system to trace a thread so."""
    if LIBC.ptrace(request, thread, None, None) != 0:
        number = ctypes.get_errno()
        raise OSError(number, os.strerror(number))


@contextlib.contextmanager
def stopped_thread(thread):
    """A thread of another process stands still here. Who traces it has to be the same thread of ours throughout."""
    traced(PTRACE_SEIZE, thread)
    try:
        traced(PTRACE_INTERRUPT, thread)
        os.waitpid(thread, WALL)
        yield
    finally:
        traced(PTRACE_DETACH, thread)
