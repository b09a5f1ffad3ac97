"""Filters and packets of the sets, in the formats of bench_pcef, and verdicts by a scan."""
import ipaddress
import os
import struct

UP, DOWN = 0, 1
UE4, UE6 = ipaddress.ip_address("10.0.0.2"), ipaddress.ip_address("2001:db8:aa:bb::2")  # the session's address
NEAR = "2001:db8:aa:bb::/64"  # and its own network
LISTS = [(8000 * n + 1, 8000 * n + 7000) for n in range(7)]  # a filter's port ranges but the last
WITH_PORTS = (6, 17)  # of the sets' protocols


def ports_text(ranges):
    return "".join([" ", ",".join(str(low) if low == high else f"{low}-{high}" for low, high in ranges)]) if ranges else ""


class Filter:
    """A filter by its sides. A place is None for any, "assigned", or a network's text; ranges are up to eight pairs. It is
    written `in` where it is for uplink packets without a flow word."""

    def __init__(self, proto=None, remote=None, local=None, far=(), near=(), flow="-", is_in=False):
        self.proto, self.far, self.near, self.flow, self.is_in = proto, list(far), list(near), flow, is_in
        self.remote, self.local = (ipaddress.ip_network(place, strict=False) if place not in (None, "assigned") else place
                                   for place in (remote, local))
        self.directions = (UP,) if is_in or flow == "uplink" else (UP, DOWN) if flow == "bidirectional" else (DOWN,)

    def text(self):
        sides = [f"{place or 'any'}{ports_text(ranges)}"
                 for place, ranges in ((self.remote, self.far), (self.local, self.near))]
        source, target = reversed(sides) if self.is_in else sides
        proto = "ip" if self.proto is None else self.proto
        return f"permit {'in' if self.is_in else 'out'} {proto} from {source} to {target}"

    def line(self):
        """As a line of a script has it."""
        flow = "" if self.flow == "-" else f',"flow":"{self.flow}"'
        return f'{{"text":"{self.text()}"{flow}}}'

    def spans(self, ue):
        """The least and the greatest address of each side, and the ranges: numbers, which are faster to compare."""
        def span(place):
            if place == "assigned":
                place = ipaddress.ip_network(f"{ue}/{64 if ue.version == 6 else 32}", strict=False)
            if place is None:
                return 0, (1 << 128) - 1
            # Addresses of the other version fit no network.
            return (int(place[0]), int(place[-1])) if place.version == ue.version else (1, 0)
        return (self.proto, *span(self.remote), *span(self.local), self.far, self.near)


def installs(rules):
    """The lines that install rules, each a precedence and a rule."""
    for precedence, (name, filters) in rules:
        yield (f'{{"do":"install","rule":{{"name":"{name}","precedence":{precedence},"filters":'
               f'[{",".join(filter_.line() for filter_ in filters)}],"qci":9,'
               '"arp":{"level":8,"capability":false,"vulnerability":true},"gate":"ENABLED"}}')


class Packet:
    """A packet by its sides. Without ports it is a later fragment, where its protocol has ports."""

    def __init__(self, direction=DOWN, proto=17, remote="198.51.100.7", local="10.0.0.2", far=None, near=None, octets=0):
        self.direction, self.proto, self.far, self.near, self.length = direction, proto, far, near, octets
        self.remote, self.local = (ipaddress.ip_address(address) for address in (remote, local))

    def octets(self):
        is_fragment = self.far is None and self.proto in WITH_PORTS
        ends, ports = [self.remote, self.local], [self.far, self.near]
        if self.direction == UP:
            ends, ports = ends[::-1], ports[::-1]
        body = bytes(20) if self.far is None else struct.pack(">HH", *ports) + bytes(16)
        body += bytes(max(0, self.length - len(body) - (20 if self.remote.version == 4 else 40)))
        packed = ends[0].packed + ends[1].packed
        if self.remote.version == 4:
            place = 5 if is_fragment else 0
            return struct.pack(">BBHHHBBH", 0x45, 0, 20 + len(body), 1, place, 64, self.proto, 0) + packed + body
        if is_fragment:
            body = struct.pack(">BBHI", self.proto, 0, 5 << 3, 1) + body
        return struct.pack(">IHBB", 6 << 28, len(body), 44 if is_fragment else self.proto, 64) + packed + body


class Table:
    """Rules in their order, each a name and its filters."""

    def __init__(self, rules, ue):
        self.rules, self.ue = rules, ipaddress.ip_address(ue)
        self.parts = {direction: [(name, filter_.spans(self.ue)) for name, filters in rules for filter_ in filters
                                  if direction in filter_.directions] for direction in (UP, DOWN)}

    def verdict(self, packet):
        """The name of the first rule that fits, `unmatched` or `stray`."""
        remote, local, far, near, own = int(packet.remote), int(packet.local), packet.far, packet.near, int(self.ue)
        if local != own if self.ue.version == 4 else local >> 64 != own >> 64:
            return "stray"
        for name, (proto, low, high, first, last, far_ranges, near_ranges) in self.parts[packet.direction]:
            if low <= remote <= high and first <= local <= last and (proto is None or proto == packet.proto) and all(
                    not ranges or port is not None and any(one <= port <= other for one, other in ranges)
                    for ranges, port in ((far_ranges, far), (near_ranges, near))):
                return name
        return "unmatched"


def write_set(folder, name, table, packets, verdicts=None):
    """NAME.rules, NAME.packets, NAME.ue and NAME.expected."""
    base = os.path.join(folder, name)
    with open(f"{base}.rules", "w") as file:
        for precedence, (rule, filters) in enumerate(table.rules, 1):
            file.writelines(f"{rule} {precedence} {filter_.flow} {filter_.text()}\n" for filter_ in filters)
    with open(f"{base}.packets", "wb") as file:
        file.write(struct.pack("<I", len(packets)))
        for packet in packets:
            octets = packet.octets()
            file.write(struct.pack("<HB", len(octets), packet.direction) + octets)
    with open(f"{base}.expected", "w") as file:
        file.writelines(f"{verdict}\n" for verdict in verdicts or map(table.verdict, packets))
    with open(f"{base}.ue", "w") as file:
        file.write(f"{table.ue}\n")
