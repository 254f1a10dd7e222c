"""A network of its own for a process, with loopback alone and small buffers for what is sent."""

import ctypes
import fcntl
import pathlib
import socket
import struct


CLONE_NEWNET = 0x40000000
SIOCSIFFLAGS, IFF_UP = 0x8914, 1
SEND_BUFFER = pathlib.Path("/proc/sys/net/ipv4/tcp_wmem")


def enter_own_network(send_buffer):
    """Has this process, and those that it starts from now on, use a network of its own. There the system takes at most
    this many bytes of what a socket has to send. Needs root."""
    if ctypes.CDLL(None).unshare(CLONE_NEWNET):
        raise AssertionError("a network of its own is not permitted")
    with socket.socket() as control:
        fcntl.ioctl(control, SIOCSIFFLAGS, struct.pack("16sH14x", b"lo", IFF_UP))
    SEND_BUFFER.write_text(f"4096 16384 {send_buffer}")
