"""Tables that commands make, found by fresh eyes: older rules behind the newer one that decides, protocols spread over
many rules, and what rules that went may leave in a base: intervals, lines in two blocks, and words."""
import ipaddress

from bases import acts
from model import UE6, UP, Filter, Packet, installs

NET = int(UE6) >> 64 << 64
OWN = NET + 0x5555555555555555
OTHER, HEAD = (int(ipaddress.ip_address(text)) for text in ("4001:db8::", "8101:db8::"))
SHORT = [(100 + 10 * n, 105 + 10 * n) for n in range(7)] + [(20000, 30000)]
PORT = 0x64FE


def text_of(number):
    return str(ipaddress.ip_address(number))


def history(rules, commands):
    """The rules that stand, and the commands as lines: ~ installs a rule with other contents, + as it is, - removes it."""
    at = {name: (place, (name, filters)) for place, (name, filters) in enumerate(rules, 1)}
    lines, stand = [], set()
    for act, name in commands:
        place, rule = at[name]
        first = (name, [Filter(proto=1, remote=text_of(OTHER + 99999))])
        lines += ([f'{{"do":"remove","name":"{name}"}}'] if act == "-" else
                  installs([(place, first if act == "~" else rule)]))
        (stand.discard if act == "-" else stand.add)(name)
    return [rule for rule in rules if rule[0] in stand], lines


class Maker:
    """Makes filters of a protocol that fit, and others that fail at their remote address or, where protocols are spread,
    at theirs."""

    def __init__(self, proto, is_spread, has_ports=False):
        self.proto, self.failed, self.gone_count = proto, 0, 0
        self.protos = [p for p in range(0, proto, 2) if p != 6] if is_spread else [proto]
        self.lists = SHORT if has_ports else []

    def fit(self, n=0, local=None):
        return Filter(proto=self.proto, remote=f"8000::/{1 + n % 7}", local=local or f"{UE6}/{64 - n % 60}",
                      far=self.lists, near=self.lists)

    def fail(self):
        self.failed += 1
        return Filter(proto=self.protos[self.failed % len(self.protos)], remote=text_of(OTHER + 2 * self.failed),
                      local=f"{UE6}/{64 - self.failed % 60}", far=self.lists, near=self.lists)

    def gone(self):
        """A filter of a rule that goes: its local network is narrower than the session's, and its ports are single."""
        line, self.gone_count = self.fail(), self.gone_count + 1
        line.local = ipaddress.ip_network(text_of(NET + (0x5600 + 2 * self.gone_count << 48)) + "/80")
        if self.lists:
            first = 0x6400 + 16 * (self.gone_count % 16)
            line.far = line.near = [(port, port) for port in range(first, first + 16, 2)]
        return line

    def rule(self, name, count=16, fits=False):
        return name, [self.fit() if fits and k == 0 else self.fail() for k in range(count)]

    def goner(self, name, fitting):
        lines = [self.fit(0, f"{text_of(OWN)}/{65 + i}") for i in range(fitting)]
        return name, lines + [self.gone() for _ in range(16 - fitting)]

    def made(self, rules, commands):
        ports = {"far": PORT, "near": PORT} if self.lists else {}
        stand, lines = history(rules, commands)
        return stand, [Packet(proto=self.proto, remote=text_of(HEAD + 1 + n), local=text_of(OWN), **ports)
                       for n in range(64)], lines


def behind(proto=254, is_spread=True):
    """A newer rule decides. Behind it stand 59 older ones that fit, and before it one that fails; three more went."""
    def make():
        m = Maker(proto, is_spread)
        gone = [m.goner(f"g{r}", 1) for r in range(3)]
        before = [m.rule("p"), m.rule("a", 1)]
        news = [m.rule(f"n{r}", fits=r == 0) for r in range(3)]
        olds = [(f"b{r:02}", [m.fit(r)]) for r in range(59)]
        return m.made(gone + before + news[:1] + olds + news[1:],
                      acts("+", gone, before) + acts("~", olds[:4]) + acts("+", olds[4:], olds[:4])
                      + acts("-", gone) + acts("+", news))
    return make


def behind_installed():
    """The same by installs alone: with the last rule but one the base is made anew."""
    m = Maker(254, True)
    first, news, more = [m.rule("a", 1)], [m.rule("n", fits=True)], [m.rule("x")]
    olds = [(f"b{r:02}", [m.fit(r)]) for r in range(60)]
    return m.made(first + news + olds + more, acts("+", first, olds, more, news))


def straddle(proto=254, is_spread=True, has_ports=False):
    """Three rules went; the last has lines in two blocks. The next line decides; so would the newer base, behind all."""
    def make():
        m = Maker(proto, is_spread, has_ports)
        gone = [m.goner(f"g{r}", 2) for r in range(3)]
        body = [gone[0], gone[1], m.rule("p"), m.rule("q", 15), gone[2], m.rule("f", fits=True)]
        body += [m.rule(f"o{r}") for r in range(61 - len(body))]
        news = [m.rule(f"n{r}", fits=r == 0) for r in range(4)]
        return m.made(body + news, acts("+", body) + acts("-", gone) + acts("+", news))
    return make


def spread_alone():
    """No rule goes: the first older line decides, the newer ones come last, and lines that fail have other protocols."""
    m = Maker(254, True)
    ones, body = [(f"s{r}", [m.fit()]) for r in range(4)], [m.rule(f"o{r}") for r in range(56)]
    news = [m.rule(f"n{r}", fits=r == 0) for r in range(4)]
    return m.made(ones + body + news, acts("+", ones, body, news))


def own_two(went=0):
    """As spread_alone, uplink, and dearer at each step: eight protocols in a row are counted one by one, the older
    base's networks lie below the packet's address and the newer one's above, and that address is the session's own.
    Where rules went, eight at most, their lines fit, they lie in two blocks or more, and the first older line that stands
    is behind them."""
    low, high = (int(ipaddress.ip_address(text)) for text in ("1001:db8::", "c001:db8::"))
    failed = {low: 0, high: 0}

    def fail(first):
        failed[first] += 1
        n = failed[first]
        return Filter(proto=255 - n % 8, remote=text_of(first + 2 * n), local=f"{UE6}/{64 - n % 60}", is_in=True)

    def rule(name, first, count=16, fits=()):
        fit = Filter(proto=255, remote="::/1", local=f"{UE6}/64", is_in=True)
        return name, [fit if k in fits else fail(first) for k in range(count)]

    def make():
        gone = [rule(f"g{r}", low, 16, range(16)) for r in range(went)]
        before = [rule("p", low), rule("q", low), rule("r", low), rule("t", low, 8)] if went else []
        ones = [rule(f"s{r}", low, 1, (0,) if r == 0 else ()) for r in range(4)]
        olds = [rule(f"o{r:02}", low) for r in range(52 - went if went else 56)]
        news = [rule(f"n{r}", high, 16, (0,) if r == 0 else ()) for r in range(4)]
        packets = [Packet(direction=UP, proto=255, remote=text_of(NET + 0x7777777777770000 + n), local=text_of(OWN))
                   for n in range(64)]
        stand, lines = history(before + gone + ones + olds + news,
                               acts("+", ones, before[3:], gone, before[:3], olds) + acts("-", gone) + acts("+", news))
        return stand, packets, lines
    return make


SETS = {"behind": behind(), "behind_one_proto": behind(1, False), "behind_installed": behind_installed,
        "straddle": straddle(), "straddle_ports": straddle(132, True, True),
        "straddle_ports_one_proto": straddle(132, False, True), "straddle_one_proto": straddle(1, False),
        "spread_alone": spread_alone, "own_two": own_two(), "own_two_gone": own_two(1),
        "own_two_eight_gone": own_two(8)}
