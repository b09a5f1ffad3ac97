#!/usr/bin/env python3
"""Writes tables of 64, 8 and 1 rules, packets for each, and the verdicts that a scan in Python finds.

usage: sets.py FOLDER

NAME.rules, NAME.packets, NAME.ue and NAME.expected as worst.py writes them, and two files more of each table: NAME.lines
has it as lines of a script, and NAME.entries its filters as numbers, for programs that read no filter texts.

rules_64   64 rules with 544 filters (1 to 16 each), 65,536 packets of some 330 octets; 90 of 100 fit a rule
hot_64     the same rules, and the first 1,024 of the packets
flows_64   the same rules, and 1,024 packets of 24 connections, in bursts
rules_1    one rule with 8 filters, 16,384 packets; hot_1 and flows_1 in the same way

The sets are the same in each run. Python 3.8.
"""
import ipaddress
import os
import random
import sys

from model import DOWN, UP, Filter, Packet, Table, write_set

UE = "10.0.0.2"
SERVICES = (22, 25, 53, 80, 110, 123, 143, 443, 554, 853, 993, 1883, 3478, 5060, 5222, 8080, 8883, 19302)
LENGTHS = (8, 11, 12, 14, 15, 16, 16, 17, 18, 19, 20, 20, 21, 22, 22, 23, 24, 24, 24, 25, 26, 27, 28, 29, 30, 32, 32, 32)
PROTOCOLS = (None, None, 6, 6, 6, 6, 17, 17, 17, 1)


class Maker:
    """Makes rules and packets from a seed."""

    def __init__(self, seed):
        self.random = random.Random(seed)
        self.operators = [self.random.randrange(0x0B00_0000, 0xDF00_0000) & 0xFFFF_0000 for _ in range(20)]

    def remote(self):
        """An address of one of twenty operators, many of them in a few of its networks."""
        pick = self.random
        third = pick.choice((0, 1, 4, 16, 32, 100, 128, 192)) if pick.random() < 0.7 else pick.randrange(256)
        return pick.choice(self.operators) | third << 8 | pick.randrange(256)

    def ranges(self, most):
        """Up to `most` ports and ranges, few of them most often."""
        pick = self.random
        found = []
        for _ in range(min(pick.randrange(most + 1), pick.randrange(most + 1))):
            if pick.random() < 0.65:
                port = pick.choice(SERVICES) if pick.random() < 0.6 else pick.randrange(65536)
                found.append((port, port))
            else:
                port = pick.randrange(62000)
                found.append((port, port + pick.choice((1, 9, 31, 99, 999, 3000))))
        return found

    def filter(self, is_up=None):
        pick = self.random
        proto = pick.choice(PROTOCOLS)
        remote = None
        if pick.random() < 0.75:
            remote = f"{ipaddress.ip_address(self.remote())}/{pick.choice(LENGTHS)}"
        local = pick.choice(("assigned", "assigned", "assigned", None, None, f"{UE}/{pick.choice((8, 16, 24, 31, 32))}"))
        if pick.random() < 0.03:
            local = f"10.0.1.{pick.randrange(256)}"
        far, near = ([], []) if proto == 1 else (self.ranges(8), self.ranges(4))
        if remote is None and not far and not near:  # or it would be a rule for all that comes
            remote = f"{ipaddress.ip_address(self.remote())}/24"
        if pick.random() < 0.5 if is_up is None else is_up:
            return Filter(proto, remote, local, far, near, is_in=True)
        flow = pick.choice(("-", "-", "-", "-", "downlink", "uplink", "bidirectional"))
        return Filter(proto, remote, local, far, near, flow="-" if is_up is False else flow)

    def table(self, counts):
        rules = [(f"rule{number:02}", [self.filter(place % 2 == 0 if len(counts) == 1 else None) for place in range(count)])
                 for number, count in enumerate(counts)]
        return Table(rules, UE)

    def length(self):
        pick = self.random
        return pick.choice((pick.randint(40, 80), pick.randint(40, 80), pick.randint(400, 700), pick.randint(40, 80),
                            pick.randint(400, 700), pick.randint(40, 80), pick.randint(1300, 1500), pick.randint(40, 80),
                            pick.randint(400, 600), pick.randint(40, 80)))

    def port(self, ranges):
        pick = self.random
        if ranges:
            return pick.randint(*pick.choice(ranges))
        return pick.choice(SERVICES) if pick.random() < 0.3 else pick.randrange(1024, 65536)

    def packet_for(self, direction, filter_):
        """A packet that the filter fits, but for its local address."""
        pick = self.random
        remote = self.remote()
        if filter_.remote:
            remote = int(filter_.remote[0]) + pick.randrange(filter_.remote.num_addresses)
        proto = pick.choice((6, 17)) if filter_.proto is None else filter_.proto
        ports = (self.port(filter_.far), self.port(filter_.near)) if proto != 1 else (None, None)
        return Packet(direction, proto, str(ipaddress.ip_address(remote)), UE, *ports, self.length())

    def other_packet(self, direction):
        pick = self.random
        local = f"10.0.0.{pick.randrange(3, 250)}" if pick.random() < 0.1 else UE
        return Packet(direction, pick.choice((6, 17)), str(ipaddress.ip_address(self.remote())), local,
                      pick.randrange(65536), pick.randrange(1024, 65536), self.length())

    def packets(self, table, count):
        """Packets, each direction as often, and their verdicts. Nine of ten are made for a rule, and most of them are
        tried until it is the first that fits."""
        filters = {direction: [(name, [filter_ for filter_ in filters if direction in filter_.directions])
                               for name, filters in table.rules] for direction in (UP, DOWN)}
        filters = {direction: [part for part in parts if part[1]] for direction, parts in filters.items()}
        packets, verdicts = [], []
        for number in range(count):
            direction = number % 2
            if self.random.random() < 0.09:
                packet = self.other_packet(direction)
                verdict = table.verdict(packet)
            else:
                name, those = self.random.choice(filters[direction])
                for _ in range(4):
                    packet = self.packet_for(direction, self.random.choice(those))
                    verdict = table.verdict(packet)
                    if verdict == name:
                        break
            packets.append(packet)
            verdicts.append(verdict)
        return packets, verdicts

    def bursts(self, packets, verdicts, connections, count):
        """Packets of a few connections, both directions of each, where three of four go on with the last connection."""
        chosen = [(packet, verdict) for packet, verdict in zip(packets, verdicts) if verdict.startswith("rule")
                  and packet.proto != 1][:connections]
        found, now = [], 0
        for _ in range(count):
            if self.random.random() < 0.25:
                now = self.random.randrange(connections)
            packet, _ = chosen[now]
            direction = packet.direction if self.random.random() < 0.6 else 1 - packet.direction
            found.append(Packet(direction, packet.proto, str(packet.remote), str(packet.local), packet.far, packet.near,
                                self.length()))
        return found


def line_of(name, precedence, filters):
    """An `install` line; each second rule counts for one of four keys."""
    key = f',"key":"key{precedence % 8 // 2}"' if precedence % 2 == 0 else ""
    texts = ",".join(filter_.line() for filter_ in filters)
    return (f'{{"do":"install","rule":{{"name":"{name}","precedence":{precedence},"filters":[{texts}],"qci":9,'
            f'"arp":{{"level":8,"capability":false,"vulnerability":true}},"gate":"ENABLED"{key}}}}}')


def write_table(folder, name, table):
    with open(os.path.join(folder, f"{name}.lines"), "w") as file:
        file.writelines(f"{line_of(rule, place, filters)}\n" for place, (rule, filters) in enumerate(table.rules, 1))
        file.writelines(f'{{"do":"monitor","key":"key{key}","grant":1000000000000000}}\n' for key in range(4))
    with open(os.path.join(folder, f"{name}.entries"), "w") as file:
        for number, (_, filters) in enumerate(table.rules):
            for filter_ in filters:
                proto, low, high, first, last, far, near = filter_.spans(table.ue)
                bits = [0 if place is None else 32 if place == "assigned" else place.prefixlen
                        for place in (filter_.remote, filter_.local)]
                ranges = [",".join(f"{one}-{other}" for one, other in ranges) or "*" for ranges in (far, near)]
                for direction in filter_.directions:
                    file.write(f"{number} {direction} {-1 if proto is None else proto} {low % 2**32} {bits[0]} "
                               f"{first % 2**32} {bits[1]} {ranges[0]} {ranges[1]}\n")


def write_sets(folder):
    os.makedirs(folder, exist_ok=True)
    maker = Maker(2203)
    for size, counts, count in ((64, [1 + number * 5 % 16 for number in range(64)], 65536), (1, [8], 16384)):
        table = maker.table(counts)
        packets, verdicts = maker.packets(table, count)
        sets = [(f"rules_{size}", packets, verdicts), (f"hot_{size}", packets[:1024], verdicts[:1024])]
        sets.append((f"flows_{size}", maker.bursts(packets, verdicts, 24, 1024), None))
        for name, some, told in sets:
            write_set(folder, name, table, some, told)
            write_table(folder, name, table)


if __name__ == "__main__":
    write_sets(sys.argv[1])
