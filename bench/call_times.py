"""How long single calls take that two programs exchange over loopback, by the times of their packets.

    unshare -n sh -c 'ip link set lo up; python3 bench/call_times.py PORT COMMAND..'

It runs the command, and looks meanwhile at the packets to that port that carry bytes. Two of them
are one call apart, as the kernel notes their times. It prints the median and what one of a hundred
calls exceeds. It must see raw packets, so it is run by root, in a network of its own.
"""
import socket
import struct
import subprocess
import sys
import threading

SO_TIMESTAMPNS = 35
SO_RCVBUFFORCE = 33


def carries_bytes(packet, port):
    """Whether a packet of IPv4 goes to this port and has bytes beside its headers."""
    if packet[9] != socket.IPPROTO_TCP:
        return False
    head = 4 * (packet[0] & 15)
    whole = int.from_bytes(packet[2:4], "big")
    to = int.from_bytes(packet[head + 2 : head + 4], "big")
    return to == port and whole > head + 4 * (packet[head + 12] >> 4)


def watch(sniffer, port, times):
    """Notes the nanoseconds of each such packet, until nothing comes for a while."""
    while True:
        try:
            packet, notes, _, _ = sniffer.recvmsg(128, 64)
        except TimeoutError:
            return
        if carries_bytes(packet, port):
            for _, kind, note in notes:
                if kind == SO_TIMESTAMPNS:
                    seconds, nanoseconds = struct.unpack("qq", note[:16])
                    times.append(seconds * 10**9 + nanoseconds)


def main(port, *command):
    sniffer = socket.socket(socket.AF_PACKET, socket.SOCK_DGRAM, socket.htons(0x0800))
    sniffer.setsockopt(socket.SOL_SOCKET, SO_RCVBUFFORCE, 1 << 28)
    sniffer.setsockopt(socket.SOL_SOCKET, SO_TIMESTAMPNS, 1)
    sniffer.bind(("lo", 0))
    sniffer.settimeout(2)
    times = []
    watcher = threading.Thread(target=watch, args=(sniffer, int(port), times))
    watcher.start()
    subprocess.run(command, check=True, stdout=subprocess.DEVNULL)
    watcher.join()
    # The first packets open the connection.
    spans = sorted(late - early for early, late in zip(times[10:], times[11:]))
    if not spans:
        sys.exit("no calls were seen")
    half, most = spans[len(spans) // 2], spans[len(spans) * 99 // 100]
    print(f"{len(spans)} calls: median {half / 1000:.1f}, p99 {most / 1000:.1f} microseconds")


main(*sys.argv[1:])
