"""The FCS by another CRC than the library's: binascii's is the ITU-T's, highest bit first."""
import binascii


def right_fcs(octets):
    turned = bytes(int(f"{octet:08b}"[::-1], 2) for octet in octets)
    return int(f"{binascii.crc_hqx(turned, 0):016b}"[::-1], 2).to_bytes(2, "little")
