#!/usr/bin/env python3
"""Writes tables and packets that an index of rules has to fear, each with the verdicts that a scan in Python finds.

usage: worst.py FOLDER

For each set FOLDER gets NAME.rules, NAME.packets, NAME.ue (the session's address) and NAME.expected (a rule's name or
`unmatched` for each packet), in the formats of bench_pcef. A set has 64 rules of 16 filters, and downlink packets, but
where it says otherwise. A set whose table is made by commands has NAME.lines besides. The sets are the same in each run.
"""
import ipaddress
import os
import random
import sys

import bases
import histories
import model
from model import LISTS, NEAR, UE4, UE6, UP, Filter, Table, installs, write_set

RULES, FILTERS = 64, 16


def Packet(**fields):
    """A packet of the session, of the version of its remote address."""
    fields.setdefault("local", str(UE6 if ":" in fields.get("remote", "") else UE4))
    return model.Packet(**fields)


def all_alike(make):
    return [make(rule, number) for rule in range(RULES) for number in range(FILTERS)]


def half_networks():
    """Networks that end within an octet, and packets of their other half."""
    return (all_alike(lambda r, k: Filter(remote="198.51.100.0/25")),
            [Packet(remote=f"198.51.100.{128 + n % 128}", far=n, near=n) for n in range(256)])


def networks_of(bits):
    """Networks of one length, and packets that differ from them in the last bit that counts, or in one of the last four."""
    def make():
        network = int(ipaddress.ip_address("198.51.100.77"))
        other = [network ^ 1 << 32 - bits + n % 4 for n in range(64)]
        return (all_alike(lambda r, k: Filter(remote=f"198.51.100.77/{bits}")),
                [Packet(remote=str(ipaddress.ip_address(value)), far=1, near=1) for value in other])
    return make


def meeting(r, k):
    return [(4096 * (j + 1) - 200 - r, 4096 * (j + 1) + 10 + k) for j in range(8)]


def meeting_ranges():
    """Ranges of several high octets that begin and end near the same eight ports, on both sides."""
    ports = [4096 * (j + 1) + beyond for j in range(8) for beyond in range(40, 240, 6)]
    return (all_alike(lambda r, k: Filter(far=meeting(r, k), near=meeting(r, k))),
            [Packet(far=port, near=ports[-1 - n]) for n, port in enumerate(ports)])


def meeting_alike():
    """The same; packets whose ports of both sides are the same ones, beyond the ends or below them."""
    ports = [4096 * (j + 1) + beyond for j in range(8) for beyond in [*range(50, 250, 8), *range(-440, -263, 8)]]
    return (all_alike(lambda r, k: Filter(far=meeting(r, k), near=meeting(r, k))),
            [Packet(far=port, near=port) for port in ports])


def meeting_ends():
    """The same, and packets whose remote port is among the ends."""
    ports = [4096 * (j + 1) + near for j in range(8) for near in list(range(-262, -200, 5)) + list(range(11, 26))]
    return (all_alike(lambda r, k: Filter(far=meeting(r, k), near=meeting(r, k))),
            [Packet(far=port, near=ports[-1 - n]) for n, port in enumerate(ports)])


def crossed_ports(side):
    """Lists of single ports, and packets with the high octet of one and the low octet of another."""
    def make():
        highs, lows = [3, 21, 40, 77, 103, 150, 199, 240], [5, 50, 81, 99, 130, 177, 201, 250]
        ports = [256 * high + low for high, low in zip(highs, lows)]
        crossed = [256 * high + low for i, high in enumerate(highs) for j, low in enumerate(lows) if i != j]
        ranges = [(port, port) for port in ports]
        if side == "remote":
            return (all_alike(lambda r, k: Filter(far=ranges)), [Packet(far=port, near=9) for port in crossed])
        if side == "local":
            return (all_alike(lambda r, k: Filter(near=ranges)), [Packet(far=9, near=port) for port in crossed])
        return (all_alike(lambda r, k: Filter(far=ranges, near=ranges)),
                [Packet(far=ports[7], near=port) for port in crossed])
    return make


def heavy_ends(sides):
    """Ends of ranges that all filters share among thousands that each has alone, and packets right beside the shared ends.
    Where the index keeps a choice of ends, evenly by their order, the shared ones are left out."""
    def make():
        chosen = random.Random(7)
        shared = [(9000, 20000), (30011, 41017), (50003, 57013)]
        alone = iter(chosen.sample([*range(1000, 8900), *range(20100, 30000), *range(41100, 50000), *range(57100, 65000)],
                                   1024 * 5))
        def ranges(r, k):
            return [(port, port) for port in sorted(next(alone) for _ in range(5))] + shared
        def make_filter(r, k):
            own = ranges(r, k)
            return Filter(far=own if "remote" in sides else [], near=own if "local" in sides else [])
        beside = [port for low, high in shared for port in (low - 1, high + 1)]
        inside = shared[2][0] + 5
        if sides == ("remote",):
            return (all_alike(make_filter), [Packet(far=port, near=9) for port in beside])
        if sides == ("local",):
            return (all_alike(make_filter), [Packet(far=9, near=port) for port in beside])
        return (all_alike(make_filter), [Packet(far=inside, near=port) for port in beside])
    return make


def heavy_ends_in(octets):
    """The same, where the ends that each filter has alone lie around the shared ones, in these high octets."""
    def make():
        shared = [(256 * octet + 100, 256 * octet + 500) for octet in octets]
        each = 8 - len(shared)
        count = 0
        def make_filter(r, k):
            nonlocal count
            own = []
            for _ in range(each):
                octet = octets[count % len(octets)]
                port = 256 * octet + 600 + (count * 7) % 1400
                own.append((port, port))
                count += 1
            return Filter(far=own + shared)
        return (all_alike(make_filter),
                [Packet(far=port, near=9) for low, high in shared for port in (low - 1, high + 1)])
    return make


def other_local():
    """Local networks that don't hold the session's address."""
    return (all_alike(lambda r, k: Filter(local=f"10.{1 + r}.{k}.0/24")),
            [Packet(far=n, near=9) for n in range(64)])


def near_local():
    """Local hosts that differ from the session's address in one bit."""
    return (all_alike(lambda r, k: Filter(local=str(ipaddress.ip_address(int(UE4) ^ 1 << (r + k) % 32)))),
            [Packet(far=n, near=9) for n in range(64)])


def local_hosts():
    """Version 6: local hosts of the session's own network, and packets of another of its hosts."""
    first = int(UE6)
    return (all_alike(lambda r, k: Filter(local=str(ipaddress.ip_address(first + 256 * (16 * r + k + 1))))),
            [Packet(remote="2001:db8:1::9", local=str(ipaddress.ip_address(first + 1 + n)), far=9, near=9)
             for n in range(64)])


def local_host_octet(octet):
    """The same: one local host, and packets of hosts that differ from it in this octet."""
    def make():
        first = int(ipaddress.ip_address("2001:db8:aa:bb:1122:3344:5566:7788"))
        return (all_alike(lambda r, k: Filter(local=str(ipaddress.ip_address(first)))),
                [Packet(remote="2001:db8:1::9", local=str(ipaddress.ip_address(first ^ n + 1 << 8 * (15 - octet))), far=9,
                        near=9) for n in range(64)])
    return make


def portless(proto):
    """Filters with port lists, and packets without ports: ICMP, or later fragments."""
    def make():
        ranges = [(1000 * n + 1, 1000 * n + 900) for n in range(8)]
        return (all_alike(lambda r, k: Filter(far=ranges, near=ranges)), [Packet(proto=proto) for _ in range(64)])
    return make


def portless_for_last():
    """The same, where the last filter has no list and fits."""
    filters, packets = portless(17)()
    filters[-1] = Filter(proto=17)
    return filters, packets


def host_octet(octet):
    """Version 6: one remote host, and packets of hosts that differ from it in this octet."""
    def make():
        host = int(ipaddress.ip_address("2001:db8:1234:5678:9abc:def0:1357:9bdf"))
        return (all_alike(lambda r, k: Filter(remote=str(ipaddress.ip_address(host)))),
                [Packet(remote=str(ipaddress.ip_address(host ^ n + 1 << 8 * (15 - octet))), far=9, near=9)
                 for n in range(64)])
    return make


def other_version(of_packets):
    """Hosts of one version whose octets look like those of the other version's packets: 3, 5, 7 and 15."""
    def make():
        wide = "2001:dbc6:33:64::7"
        octets = ipaddress.ip_address(wide).packed
        narrow = ".".join(str(octets[place]) for place in (3, 5, 7, 15))
        host, other = (narrow, wide) if of_packets == 6 else (wide, narrow)
        return (all_alike(lambda r, k: Filter(remote=host)), [Packet(remote=other, far=n, near=9) for n in range(64)])
    return make


def last_of_all():
    """The last filter alone fits, behind filters that fail at their last port."""
    ranges = [(8000 * n + 1, 8000 * n + 7000) for n in range(8)]
    filters = all_alike(lambda r, k: Filter(remote="198.51.100.0/24", far=ranges, near=ranges))
    filters[-1] = Filter(remote="198.51.100.0/24")
    return filters, [Packet(far=60000, near=8000 * (n % 8) + 7100 + n) for n in range(64)]


def any_ranges():
    """Eight ranges of up to 300 ports a side at any place, other ones in each filter; any ports."""
    chosen = random.Random(3)
    def ranges():
        lows = sorted(chosen.randrange(65200) for _ in range(8))
        return [(low, low + chosen.randrange(300)) for low in lows]
    return (all_alike(lambda r, k: Filter(far=ranges(), near=ranges())),
            [Packet(far=chosen.randrange(65536), near=chosen.randrange(65536)) for _ in range(256)])


def any_wide_ranges():
    """The same with ranges of up to 5,000 ports."""
    chosen = random.Random(4)
    def ranges():
        lows = sorted(chosen.randrange(60000) for _ in range(8))
        return [(low, low + chosen.randrange(5000)) for low in lows]
    return (all_alike(lambda r, k: Filter(far=ranges(), near=ranges())),
            [Packet(far=chosen.randrange(65536), near=chosen.randrange(65536)) for _ in range(256)])


def doubled_ranges():
    """Nested ranges: each port between lies in some ranges and beside others, so each interval has one end."""
    return (all_alike(lambda r, k: Filter(far=[(30000 - 16 * r - k, 30010 + 16 * r + k)],
                                          near=[(40010 + 16 * r + k, 50000)])),
            [Packet(far=28900 + 17 * n, near=40000 + 16 * n) for n in range(64)])


def crossed_wide():
    """Version 6, crossed local ports behind networks that hold and eight remote ranges of which the last holds."""
    filters, packets = crossed_ports("both")()
    far, near = filters[0].far, filters[0].near
    return (all_alike(lambda r, k: Filter(proto=17, remote="2001:db8:1::/127", local=str(UE6), far=far, near=near)),
            [Packet(remote="2001:db8:1::1", far=packet.far, near=packet.near) for packet in packets])


def steps_in_one_octet():
    """Ranges that begin in one high octet, at other ports in each, on both sides; packets of its last ports."""
    def ranges(n):
        return [(0x6400 + n % 250, 0x6500 + n // 4 % 250)]
    return (all_alike(lambda r, k: Filter(far=ranges(16 * r + k), near=ranges(7 * (16 * r + k)))),
            [Packet(far=0x64FA + n % 6, near=0x64FA + n // 6 % 6) for n in range(36)])


def many_ends_in_one_octet():
    """Eight single ports a side of one high octet in each filter, and other ports of that octet's neighbourhood."""
    chosen = random.Random(5)
    def ports():
        return [(port, port) for port in sorted(chosen.sample(range(0x6400, 0x6500, 2), 8))]
    return (all_alike(lambda r, k: Filter(far=ports(), near=ports())),
            [Packet(far=0x6401 + 2 * n, near=0x64FF - 2 * n) for n in range(127)])


def few_steps_too_many():
    """Some 300 ends, each shared by many filters: an even choice of 255 leaves every sixth out or so."""
    def ranges(r, k):
        n = 16 * r + k
        return [(200 * (n % 37) + 7500 * j + 3, 200 * (n % 37) + 7500 * j + 90) for j in range(8)]
    ports = sorted({port for r in range(RULES) for k in range(FILTERS) for low, high in ranges(r, k)
                    for port in (low - 1, high + 1)})
    return all_alike(lambda r, k: Filter(far=ranges(r, k))), [Packet(far=port, near=9) for port in ports]


def nested_ends(both):
    """Ranges that end at one of sixteen ports, each shared by 64 filters, among 8,000 ends that each filter has alone."""
    def make():
        chosen = random.Random(11)
        alone = iter(chosen.sample([port for port in range(20000, 64000) if port % 1000 > 8], 1024 * 4))
        def ranges(r, k):
            own = [(port, port) for port in sorted(next(alone) for _ in range(4))]
            return [(100 + r, 2000 + k), (3000 + r, 5000 + k), (6000 + k, 9000 + r), (10000 + k, 15000 + r)] + own
        def make_filter(r, k):
            own = ranges(r, k)
            return Filter(far=own, near=own if both else [])
        ports = [base + n for base in (2000, 5000, 6000, 10000) for n in range(17)] + [2015, 5016, 9064, 15064]
        return (all_alike(make_filter), [Packet(far=port, near=ports[-1 - n]) for n, port in enumerate(ports)])
    return make


def thinned(is_wide):
    """One range of each filter ends at a port of its own, on both sides in opposite order, so 1,024 ports a side. Where the
    index keeps a choice of 1,023 ends, by their weight, sixteen filters a side that a packet just misses lie within its
    intervals. The last of eight ranges decides, behind addresses that fit."""
    def make():
        shared = [(500 + 100 * n, 550 + 100 * n) for n in range(7)]
        def make_filter(r, k):
            n = 16 * r + k
            # Fourteen ends more move the intervals of the two sides to where they meet.
            near = shared[:6] + [(39000, 40000 + n)] if n < 14 else shared
            return Filter(proto=17, remote="2001:db8:1::/127" if is_wide else "198.51.100.6/31",
                          local=str(UE6 if is_wide else UE4), far=shared + [(20000, 30000 + n)],
                          near=near + [(20000, 40014 + 1023 - n)])
        return (all_alike(make_filter),
                [Packet(remote="2001:db8:1::1" if is_wide else "198.51.100.7", far=30016 + 17 * n, near=41022 - 17 * n)
                 for n in range(1, 59)])
    return make


def assigned_remote():
    """Filters whose remote side is `assigned`, and uplink packets to another address than the session's."""
    return (all_alike(lambda r, k: Filter(remote="assigned", local=NEAR, is_in=True)),
            [Packet(direction=UP, remote="2001:db8:1::1", far=9 + n, near=9) for n in range(64)])


def assigned_remote_narrow():
    """The same of version 4."""
    return (all_alike(lambda r, k: Filter(remote="assigned", local="10.0.0.2", is_in=True)),
            [Packet(direction=UP, far=9 + n, near=9) for n in range(64)])


def other_local_wide():
    """Version 6: local hosts of another network than the session's, behind remote networks and port lists that fit."""
    return (all_alike(lambda r, k: Filter(remote="2001:db8:1::/127", local=f"2001:db8:aa:bc::{r:x}:{k:x}", far=[(1, 60000)],
                                          near=[(1, 60000)])),
            [Packet(remote="2001:db8:1::1", far=9 + n, near=9) for n in range(64)])


def local_of_version_4():
    """Version 6: all but sixteen local networks are of version 4, and stand in the sieves of version 6 nevertheless."""
    return (all_alike(lambda r, k: Filter(remote="2001:db8:1::/127", local=f"10.{r}.{k}.0/24" if r else "2001:db8:aa:bc::1",
                                          far=[(1, 60000)], near=[(1, 60000)])),
            [Packet(remote="2001:db8:1::1", far=9 + n, near=9) for n in range(64)])


def host_behind_all():
    """Version 6: one local host of the session's network, behind remote networks and port lists that fit; packets of its
    other hosts."""
    first = int(ipaddress.ip_address("2001:db8:aa:bb:1122:3344:5566:7788"))
    return (all_alike(lambda r, k: Filter(remote="2001:db8:1::/127", local=str(ipaddress.ip_address(first)), far=[(1, 60000)],
                                          near=[(1, 60000)])),
            [Packet(remote="2001:db8:1::1", local=str(ipaddress.ip_address(first ^ n + 1 << 8)), far=9 + n, near=9)
             for n in range(64)])


def just_missed(is_wide, is_spread, is_dense):
    """Where ranges have 16,384 ends a side, ends that weigh eight in all may lie within an interval. Sixteen filters, half
    of them by either side, have such an end right behind the packets' ports. Spread, they let each block's local word be
    looked at; else all the others are for another local network. Dense, all ports below are steps."""
    def make():
        chosen, at = random.Random(5), 0x64FD
        proto = 132
        def ends():
            # Twelve ends each make the packets' port, or all ports of its high octet below it, a step.
            pool = [(port, port) for port in range(0x6400 if is_dense else at - 1, at, 2) for _ in range(12)]
            while len(pool) < RULES * FILTERS * 8:
                port = chosen.randrange(1000, 64000)
                if port // 256 != 0x64 and port != 0x63FF:
                    pool.append((port, port))
            chosen.shuffle(pool)
            return iter(pool)
        far, near = ends(), ends()
        remote = "2001:db8:1::/127" if is_wide else "198.51.100.6/31"
        own = NEAR if is_wide else str(UE4)
        other = own if is_spread else "2001:db8:aa:bc::1" if is_wide else "10.0.0.3"
        few, holds, misses = [(100 + 10 * n, 105 + 10 * n) for n in range(7)], (2000, 64001), (at + 1, 64000)
        places = [64 * n if is_spread else 1008 + n for n in range(16)]
        def make_filter(r, k):
            n = 16 * r + k
            if n in places:
                by_far = places.index(n) < 8
                return Filter(proto=proto, remote=remote, local=own, far=few + [misses if by_far else holds],
                              near=few + [holds if by_far else misses])
            if n % 64 == 0:
                return Filter(proto=proto, remote=remote, local=other, far=few + [holds], near=few + [holds])
            # Steps of protocols, too: these are all of one high octet.
            proto_of = n % 131 if n % 64 < 9 else proto
            return Filter(proto=1 if proto_of in (6, 17) else proto_of, remote=remote, local=other,
                          far=[next(far) for _ in range(8)], near=[next(near) for _ in range(8)])
        return (all_alike(make_filter),
                [Packet(proto=proto, remote="2001:db8:1::1" if is_wide else "198.51.100.7", far=at, near=at)
                 for _ in range(16)])
    return make


def searched(is_wide):
    """Sixteen rules of one filter each, which are searched without a sieve; each fails at its last port range."""
    def make():
        remote, local = ("2001:db8:1::/127", NEAR) if is_wide else ("198.51.100.6/31", "10.0.0.0/8")
        rules = [(f"r{r:02}", [Filter(proto=17, remote=remote, local=local, far=LISTS + [(56001, 65000)],
                                      near=LISTS + [(56001, 63000)])]) for r in range(16)]
        return rules, [Packet(remote="2001:db8:1::1" if is_wide else "198.51.100.7", far=60000 + n, near=63100 + n)
                       for n in range(64)]
    return make


def gone(is_wide):
    """Half of the rules of a full table, which fit all packets with their last port ranges, are removed. Their lines stay
    in the base, and are compared before it is asked whether their rules stand. Nothing else fits. Three rules are changed
    before, so that the base has all 64. The rules that are left, the packets, and the lines."""
    def make():
        remote, local = ("2001:db8:1::/127", NEAR) if is_wide else ("198.51.100.6/31", "10.0.0.0/8")
        lists = LISTS + [(56001, 65000)]
        def filters(where):
            return [Filter(proto=17, remote=remote, local=where(k), far=lists, near=lists, flow="bidirectional")
                    for k in range(FILTERS)]
        fit = [(f"a{r:02}", filters(lambda k: local)) for r in range(RULES // 2)]
        stay = [(f"b{r:02}", filters(lambda k: f"2001:db8:aa:bc::{r:x}:{k:x}" if is_wide else f"10.{r + 1}.{k}.1"))
                for r in range(RULES // 2)]
        lines = [*installs(enumerate(fit + stay, 1))]
        stay[:3] = [(name, filters[::-1]) for name, filters in stay[:3]]
        lines += installs(enumerate(stay[:3], RULES // 2 + 1))
        lines += [f'{{"do":"remove","name":"{name}"}}' for name, _ in fit]
        return stay, [Packet(direction=UP, remote="2001:db8:1::1" if is_wide else "198.51.100.7", far=56100 + n,
                             near=56300 + n) for n in range(64)], lines
    return make


def gone_and_newer(is_wide):
    """A full table of rules for other sessions, four of which came since its base was made, and one that went since: it
    fits all packets, and its lines stay in the base."""
    def make():
        remote, local = ("2001:db8:1::/127", NEAR) if is_wide else ("198.51.100.6/31", "10.0.0.0/8")
        other = lambda r, k: f"2001:db8:aa:bc::{r:x}:{k:x}" if is_wide else f"10.{r + 1}.{k}.1"
        lists = LISTS + [(56001, 65000)]
        def rule(name, where):
            return name, [Filter(proto=17, remote=remote, local=where(k), far=lists, near=lists, flow="bidirectional")
                          for k in range(FILTERS)]
        went = rule("a", lambda k: local)
        stay = [rule(f"b{r:02}", lambda k, r=r: other(r, k)) for r in range(RULES - 1)]
        lines = [*installs(enumerate([went, *stay], 1)), '{"do":"remove","name":"a"}']
        return stay, [Packet(direction=UP, remote="2001:db8:1::1" if is_wide else "198.51.100.7", far=56100 + n,
                             near=56300 + n) for n in range(64)], lines
    return make


AT = 0x64FE  # a port, of whose high octet all ports are steps
PROTOS = [proto for proto in range(127) if proto not in (6, 17)]


def for_others(is_wide, rules=RULES, fitting=(RULES * FILTERS - 1,), has_own=True, is_plain=False):
    """Each block has one line for the session (`has_own`), which fails at its remote network, the last word that is looked
    at. All others are for other sessions: a peer that knows the session leaves them out. Unless `is_plain`, they make steps
    of all ports of the packets' high octet, of 125 protocols and, in version 6, of 2,000 networks a side. The lines of
    `fitting` fit, with the last of their eight ranges a side. Networks end at other leading octets than the packets', so
    the peer compares none."""
    def make():
        missed, fit = ("::/2", "8000::/1") if is_wide else ("0.0.0.0/2", "128.0.0.0/1")
        head, own = int(ipaddress.ip_address("8101:db8::")), int(UE6) >> 64 << 64
        place, proto = NEAR if is_wide else str(UE4), 17 if is_plain else 132
        lists = [(100 + 10 * n, 105 + 10 * n) for n in range(7)] + [(20000, 30000)]
        def make_filter(n):
            if n in fitting:
                return Filter(proto=proto, remote=fit, local=place, far=lists, near=lists)
            if n % 64 == 63 and has_own:
                return Filter(proto=proto, remote=missed, local=place)
            first = 0x6400 + 16 * (n % 16)
            ports = [] if is_plain else [(port, port) for port in range(first, first + 16, 2)]
            remote = str(ipaddress.ip_address(head + 4096 + 2 * n)) if is_wide and not is_plain else missed
            local = (str(ipaddress.ip_address(own + ((0 if is_plain else n) + 1 << 65))) if is_wide else
                     f"10.0.{1 + n // 256}.{n % 256}")
            return Filter(proto=proto if is_plain else PROTOS[n % 125], remote=remote, local=local, far=ports, near=ports)
        table = [(f"r{r:02}", [make_filter(16 * r + k) for k in range(FILTERS)]) for r in range(rules)]
        return table, [Packet(proto=proto, remote=str(ipaddress.ip_address(head + 1 + n)) if is_wide else
                              f"198.51.100.{64 + n}", far=AT, near=AT) for n in range(64)]
    return make


def installed(make):
    """The same, its rules installed one after the other: a base of the first ones, and one of those that came since."""
    def made():
        rules, packets = make()
        return rules, packets, [*installs(enumerate(rules, 1))]
    return made


def most_searched(is_wide):
    """Eight rules of one filter each, which are searched without a sieve; each fails at its last port range. No network and
    no range ends in the packets' leading octets."""
    def make():
        remote, local = ("::/2", NEAR) if is_wide else ("128.0.0.0/1", "10.0.0.0/8")
        rules = [(f"r{n}", [Filter(proto=17, remote=remote, local=local, far=LISTS + [(56001, 65000)],
                                   near=LISTS + [(56001, 62000)])]) for n in range(8)]
        return rules, [Packet(remote="2001:db8:1::1" if is_wide else "198.51.100.7", far=60000 + n, near=63100 + n)
                       for n in range(64)]
    return make


SETS = {
    "half_networks": half_networks, "networks_29": networks_of(29), "networks_32": networks_of(32),
    "networks_17": networks_of(17), "meeting_ranges": meeting_ranges, "meeting_ends": meeting_ends,
    "meeting_alike": meeting_alike,
    "crossed_remote": crossed_ports("remote"), "crossed_local": crossed_ports("local"),
    "crossed_behind_remote": crossed_ports("both"), "heavy_remote": heavy_ends(("remote",)),
    "heavy_local": heavy_ends(("local",)), "heavy_both": heavy_ends(("remote", "local")),
    "heavy_in_4": heavy_ends_in([40, 90, 150, 220]), "heavy_in_1": heavy_ends_in([100]),
    "other_local": other_local, "near_local": near_local, "portless_icmp": portless(1),
    "portless_fragments": portless(17), "portless_for_last": portless_for_last, "last_of_all": last_of_all,
    "any_ranges": any_ranges, "any_wide_ranges": any_wide_ranges, "doubled_ranges": doubled_ranges,
    "crossed_wide": crossed_wide, "steps_in_one_octet": steps_in_one_octet,
    "many_ends_in_one_octet": many_ends_in_one_octet, "few_steps_too_many": few_steps_too_many,
    "thinned": thinned(False), "thinned_wide": thinned(True),
    "nested_ends": nested_ends(False), "nested_ends_on_both_sides": nested_ends(True),
    "narrow_for_wide": other_version(6), "wide_for_narrow": other_version(4), "local_hosts": local_hosts,
    "assigned_remote": assigned_remote, "assigned_remote_narrow": assigned_remote_narrow,
    "other_local_wide": other_local_wide, "local_of_version_4": local_of_version_4, "host_behind_all": host_behind_all,
    "just_missed": just_missed(True, False, True), "just_missed_narrow": just_missed(False, False, True),
    "just_missed_spread": just_missed(True, True, False), "just_missed_spread_narrow": just_missed(False, True, False),
    "searched": searched(True), "searched_narrow": searched(False), "gone": gone(True), "gone_narrow": gone(False),
    "gone_and_newer": gone_and_newer(True), "gone_and_newer_narrow": gone_and_newer(False),
    "most_searched": most_searched(True), "most_searched_narrow": most_searched(False),
    **{name + end: make for end, is_wide in (("", True), ("_narrow", False)) for name, make in {
        "for_others": for_others(is_wide), "for_others_unmatched": for_others(is_wide, fitting=()),
        "for_others_plain": for_others(is_wide, is_plain=True), "none_own": for_others(is_wide, fitting=(), has_own=False),
        "for_others_installed": installed(for_others(is_wide, fitting=(975, 1023))),
        "none_own_installed": installed(for_others(is_wide, fitting=(), has_own=False)),
        "ten_rules_installed": installed(for_others(is_wide, rules=10, fitting=(95, 159))),
        "five_rules_installed": installed(for_others(is_wide, rules=5, fitting=(15, 79)))}.items()},
    **{f"local_host_{octet:02}": local_host_octet(octet) for octet in range(8, 16)},
    **{f"host_{octet:02}": host_octet(octet) for octet in range(16)},
    **bases.SETS,
    **histories.SETS,
}


def write_sets(folder):
    os.makedirs(folder, exist_ok=True)
    for name, make in SETS.items():
        filters, packets, *lines = make()
        rules = filters if isinstance(filters[0], tuple) else [
            (f"r{rule:02}", filters[rule * FILTERS:(rule + 1) * FILTERS]) for rule in range(RULES)]
        write_set(folder, name, Table(rules, UE4 if packets[0].remote.version == 4 else UE6), packets)
        if lines:
            with open(os.path.join(folder, f"{name}.lines"), "w", encoding="utf-8") as file:
                file.writelines(f"{line}\n" for line in lines[0])


if __name__ == "__main__":
    write_sets(sys.argv[1])
