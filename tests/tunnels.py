"""Packets in tunnels of GTP-U, made octet by octet."""
import struct

# The ends of tunnels: a base station and a gateway, of either version.
STATION, GATEWAY = bytes([192, 0, 2, 1]), bytes([192, 0, 2, 2])
STATION_6 = bytes.fromhex("20010db8000f0000000000000000000a")
GATEWAY_6 = bytes.fromhex("20010db8000f0000000000000000000b")

# The port of GTP-U, and the numbers of protocols.
GTP_U, UDP, FRAGMENT = 2152, 17, 44

# Extension headers: the PDU session container of either direction, each with the type of the next header behind it.
CONTAINER = 0x85
CONTAINER_DOWN, CONTAINER_UP = bytes([1, 0x00, 0x09]), bytes([1, 0x10, 0x09])

# An extension header of eight octets, a RAN container, before the type of the next one.
RAN_CONTAINER, RAN = 0x81, bytes([2, 1, 2, 3, 4, 5, 6])


def datagram(payload, port=GTP_U, length=None):
    """A UDP datagram without a checksum, from port 40000."""
    return struct.pack("!HHHH", 40000, port, len(payload) + 8 if length is None else length, 0) + payload


def outer(payload, fragment=0, protocol=UDP, options=b""):
    """A packet of version 4 from the station to the gateway."""
    header = struct.pack(
        "!BBHHHBBH", 0x45 + len(options) // 4, 0, 20 + len(options) + len(payload), 1, fragment, 64, protocol, 0
    )
    return header + STATION + GATEWAY + options + payload


def outer_6(payload, protocol=UDP):
    """A packet of version 6 from the gateway to the station."""
    return struct.pack("!IHBB", 0x60000000, len(payload), protocol, 64) + GATEWAY_6 + STATION_6 + payload


def message(body, teid=1, flags=0, kind=255, length=None, version=0x30):
    """A message with the header that each one has."""
    return struct.pack("!BBHI", version | flags, kind, len(body) if length is None else length, teid) + body


def optional(sequence=0, number=0, kind=0):
    """What stands behind that header with one of the flags: the last octet is the type of an extension header."""
    return struct.pack("!HBB", sequence, number, kind)
