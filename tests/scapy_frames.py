"""Whole MAC frames of IEEE 802.15.4, FCS and all, made by scapy: a line each, name and octets.

    python3 tests/scapy_frames.py

tests/scapy_frames.said has what scapy 2.5.0 printed.
"""
from scapy.layers.dot15d4 import Dot15d4Beacon, Dot15d4Cmd, Dot15d4Data, Dot15d4FCS
from scapy.packet import Raw

PAN, HUB, ROPE = 0x4C52, 0x0001, 0x000C
HUB_LONG, ROPE_LONG = 0x00124B0001020304, 0x00124B000A0B0C0D
SHORT, LONG = 2, 3


def frame(kind, number, source, **flags):
    return Dot15d4FCS(fcf_frametype=kind, seqnum=number, fcf_srcaddrmode=source, **flags)


def data(number, mode, destination, source, octets):
    head = frame(1, number, mode, fcf_destaddrmode=mode, fcf_panidcompress=1, fcf_ackreq=1)
    body = Dot15d4Data(dest_panid=PAN, dest_addr=destination, src_addr=source)
    return head / body / Raw(octets)


def frames():
    yield "acknowledgement", frame(2, 0x6A, 0)
    yield "data, short addresses", data(1, SHORT, HUB, ROPE, b"rope 12 wet")
    yield "data, long addresses", data(2, LONG, HUB_LONG, ROPE_LONG, b"rope 12 wet")
    yield "data, one octet", data(3, SHORT, HUB, ROPE, b"\x01")
    yield "data, zeros", data(4, SHORT, HUB, ROPE, bytes(64))
    beacon = Dot15d4Beacon(src_panid=PAN, src_addr=HUB, sf_pancoord=1, sf_assocpermit=1)
    yield "beacon", frame(0, 5, SHORT, fcf_destaddrmode=0) / beacon
    request = Dot15d4Cmd(dest_panid=PAN, dest_addr=HUB, src_addr=ROPE, cmd_id=4)
    head = frame(3, 6, SHORT, fcf_destaddrmode=SHORT, fcf_panidcompress=1, fcf_ackreq=1)
    yield "command, data request", head / request
    yield "the longest", data(7, SHORT, HUB, ROPE, bytes(k * 59 % 256 for k in range(116)))


for name, packet in frames():
    print(f"{name}: {bytes(packet).hex(' ')}")
