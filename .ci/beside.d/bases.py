"""Tables that commands make, whose rules are in two bases: an index that asks both may look at one in vain."""
import ipaddress

from model import LISTS, UE4, UE6, Filter, Packet, installs


def based(rules_of):
    """Tables of two bases, each a function of a version and of whether packets have ports. All lines let the session's
    address, the protocol and the ports pass, these with the last of eight ranges a side. Those that don't fit fail at
    their remote network, the last word that is looked at. A peer compares no network: remote ones end at other leading
    octets than the packets', and local ones hold the session's whole network.
    `rules_of` is given a maker of rules (a name, the number of its first filter, how many, and which of them fit). It
    gives the rules in their order and the commands: + or -, and a rule's name."""
    def of(is_wide, has_ports=True):
        def make():
            ue = UE6 if is_wide else UE4
            head, other = (int(ipaddress.ip_address(text)) for text in
                           (("8101:db8::", "4001:db8::") if is_wide else ("198.51.100.64", "65.51.101.0")))
            fit, bits = ("8000::/1", 64) if is_wide else ("128.0.0.0/1", 32)
            lists, proto = (LISTS + [(56001, 65000)], 132) if has_ports else ([], 1)
            def rule(name, first, count, fits=()):
                other_of = lambda k: str(ipaddress.ip_address(other + 2 * (first + k)))
                return name, [Filter(proto=proto, remote=fit if k in fits else other_of(k),
                                     local=f"{ue}/{bits - (first + k) % bits}", far=lists, near=lists)
                              for k in range(count)]
            rules, acts = rules_of(rule)
            at = {name: (place, (name, filters)) for place, (name, filters) in enumerate(rules, 1)}
            lines, stand = [], set()
            for act, name in acts:
                lines += installs([at[name]]) if act == "+" else [f'{{"do":"remove","name":"{name}"}}']
                (stand.add if act == "+" else stand.remove)(name)
            ports = lambda n: {"far": 60001 + n, "near": 62001 + n} if has_ports else {}
            return ([rule for rule in rules if rule[0] in stand],
                    [Packet(proto=proto, remote=str(ipaddress.ip_address(head + 1 + n)), local=str(ue), **ports(n))
                     for n in range(64)], lines)
        return make
    return of


def acts(sign, *lists):
    return [(sign, name) for rules in lists for name, _ in rules]


def sixty(rule, early):
    """Rules of which the first 60 make a base, four newer ones, and those of the base that go: two of one filter and
    one of 16. Four rules have one filter: with fewer, the base is made anew with each fifth rule that comes."""
    went = [rule(f"s{k}", k, 1, (0,)) for k in range(2)]
    smalls = [rule(f"s{k}", k, 1, (0,) if early else ()) for k in range(2, 4)]
    goner = [rule("g", 100, 16, range(16))]
    olds = [rule(f"o{r:02}", 16 * r + 200, 16, (15,) if r == 55 else ()) for r in range(1, 56)]
    return went, smalls, goner, olds, [rule(f"n{r}", 16 * r + 1200, 16, (0,) if r == 0 else ()) for r in range(4)]


def newer_first(rule):
    """The newer rules come first, and their first filter fits: a peer ends with its first word. In the base 18 lines of
    rules that went fit, and the last line of all, so it is looked up to its last block."""
    went, smalls, goner, olds, news = sixty(rule, False)
    return (news + went + smalls + goner + olds,
            acts("+", went, smalls, goner, olds, news) + acts("-", went, goner))


def older_early(rule):
    """In the base 18 lines of rules that went fit, and the first line that stands. So does the first newer line, which
    comes behind all."""
    went, smalls, goner, olds, news = sixty(rule, True)
    return (went + goner + smalls + olds + news,
            acts("+", went, smalls, goner, olds, news) + acts("-", went, goner))


def early(rule):
    """The same, and nothing went."""
    went, smalls, goner, olds, news = sixty(rule, True)
    return went + smalls + goner + olds + news, acts("+", went, smalls, goner, olds, news)


def older_last(rule):
    """As newer_first, but the newer ones come last: the last line of the base decides."""
    went, smalls, goner, olds, news = sixty(rule, False)
    return (went + smalls + goner + olds + news,
            acts("+", went, smalls, goner, olds, news) + acts("-", went, goner))


def half_gone(rule):
    """A base of 96 lines. Its first 32 fit and went, a line behind them fits, and so does the first of four newer
    rules. With the last of two more rules the base is made; the other one of them goes."""
    gone = [rule(f"g{k}", 16 * k, 16, range(16)) for k in range(2)]
    olds = [rule("o0", 32, 16, (15,)), rule("o1", 48, 16)]
    news = [rule(f"n{k}", 64 + 16 * k, 16, (0,) if k == 0 else ()) for k in range(4)]
    more = [rule(f"x{k}", 200 + 16 * k, 16) for k in range(2)]
    return (gone + olds + news + more,
            acts("+", gone, olds, more) + acts("-", more[:1], gone) + acts("+", news))


def three_gone(rule):
    """The first 48 lines of the base fit and went, sixteen behind them fail, and the next one fits, in the second word.
    So does the first newer line, which comes behind all."""
    went = [rule(f"g{k}", 16 * k, 16, range(16)) for k in range(3)]
    olds = [rule("p", 340, 16), rule("s", 300, 1, (0,)), *(rule(f"o{r:02}", 16 * r + 400, 16) for r in range(1, 56))]
    news = [rule(f"n{r}", 16 * r + 1400, 16, (0,) if r == 0 else ()) for r in range(4)]
    return went + olds + news, acts("+", went, olds, news) + acts("-", went)


def both_small(rule):
    """A base of one rule, and one of four newer ones; the last line of each first rule fits."""
    rules = [rule(f"r{k}", 16 * k, 16, (15,) if k in (0, 4) else ()) for k in range(5)]
    return rules, acts("+", rules)


SETS = {f"{name}{portless}{narrow}": based(rules_of)(not narrow, not portless)
        for name, rules_of in {"newer_first": newer_first, "older_early": older_early, "early": early,
                               "older_last": older_last, "half_gone": half_gone, "three_gone": three_gone,
                               "both_small": both_small}.items()
        for portless in ("", "_portless") for narrow in ("", "_narrow")}
