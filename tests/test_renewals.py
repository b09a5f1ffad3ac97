"""Sessions of `pcef many` that are renewed: what is answered, what stays, and what gets another number."""
import json
from collections import Counter

from commands import ATTACH, CLOSE, DNS, DNS_ANSWER, FLUSH, REFRESH, SHOW, WEB, install, line, profile, take
from programs import PCEF, PCEF_MANY, ProgramTest, lines

OPEN = line(do="open")
END = line(do="end")
RENEW = line(do="renew")
FINISH = line(do="finish", worker=0)
SUBSCRIBE = line(do="triggers", events=["USAGE_REPORT"])
TAKE = take(DNS_ANSWER)
PACKET = 28

DONE = '{"ok":true}'
NO_SESSION = '{"name":"NoSession","refused":0}'
TERMINATED = '{"name":"Terminated","refused":1}'
COMMANDS_FULL = '{"name":"CommandsFull","refused":3}'
ONE_WORKER = '{"count":1,"name":"WorkersAttached","refused":10}'
UNKNOWN_FIELD = '{"fault":6,"name":"UnknownField"}'
UNKNOWN_DO = '{"fault":5,"name":"UnknownDo"}'


def monitor(key, grant, **more):
    return line(do="monitor", key=key, grant=grant, **more)


def renewed(reports=(), bearers=()):
    """The answer to a renewal, with the reports of its end by key and octets, and bearers by old and new number."""
    ended = [{"cause": "Terminated", "key": key, "number": number, "octets": octets} for number, key, octets in reports]
    pairs = [{"new": new, "old": old} for old, new in bearers]
    return line(bearers=pairs, ok=True, reports=ended)


def voice(name, level, **more):
    """A rule for all packets on a bearer of its own, whose ARP has this priority level."""
    return install(name, filters=["permit out ip from any to any"], qci=8, level=level, **more)


class Renewals(ProgramTest):
    def answers(self, given, **parts):
        """The answers to lines of one session, on a profile with these parts."""
        self.write("profile.toml", profile(**parts))
        came = self.run_on(PCEF_MANY, ["profile.toml"], "".join(f"s {text}\n" for text in given))
        self.assertEqual(came.said, b"")
        return [answer[2:] for answer in came.wrote.decode().splitlines()]

    def after(self, before, later, **parts):
        """The answer to a renewal behind some lines, and those to the lines behind it."""
        came = self.answers([OPEN, *before, RENEW, *later], **parts)
        return came[len(before) + 1], came[len(before) + 2 :]

    def test_a_renewal_answers_or_says_why_not(self):
        steps = [
            (RENEW, NO_SESSION),
            ('{"do":"renew","ue":"10.0.0.9"}', UNKNOWN_FIELD),
            (OPEN, DONE),
            (RENEW, renewed()),
            ('{"do":"renew","now":true}', UNKNOWN_FIELD),
            (' { "do" : "\\u0072enew" } ', renewed()),
            ('{"do":"renewed"}', UNKNOWN_DO),
            (ATTACH, '{"generation":0,"ok":true,"worker":0}'),
            (RENEW, ONE_WORKER),
            (FINISH, '{"ok":true,"reports":[],"rows":0,"verdicts":[]}'),
            (ATTACH, '{"generation":0,"ok":true,"worker":1}'),
            (line(do="abandon", worker=1), '{"abandoned":0,"ok":true,"rows":0}'),
            (RENEW, renewed()),
            (ATTACH, '{"generation":0,"ok":true,"worker":0}'),
            (FINISH, '{"ok":true,"reports":[],"rows":0,"verdicts":[]}'),
            (line(do="terminate"), '{"generation":1,"ok":true,"reports":[]}'),
            (RENEW, TERMINATED),
            (END, DONE),
            (RENEW, NO_SESSION),
        ]
        self.assertEqual(self.answers([given for given, _ in steps]), [due for _, due in steps])

    def test_it_is_no_word_of_a_script(self):
        self.write("profile.toml", profile())
        self.ends(PCEF, ["script", "profile.toml"], lines(RENEW), status=1, wrote=lines(UNKNOWN_DO))

    def test_a_renewal_that_would_take_all_commands_is_refused(self):
        rules = [voice(name, level) for level, name in enumerate("abc", 1)]
        # As many commands as there are rules leave none to the new session; one more leaves one.
        self.assertEqual(self.after(rules, [], commands=3)[0], COMMANDS_FULL)
        answer, (first, second) = self.after(rules, [line(do="remove", name="a")] * 2, commands=4)
        self.assertEqual(answer, renewed(bearers=[(6, 6), (7, 7), (8, 8)]))
        self.assertEqual(json.loads(first)["ok"], True)
        self.assertEqual(second, COMMANDS_FULL)

    def test_another_session_stays_as_it_is(self):
        self.write("profile.toml", profile())
        given = [f"a {OPEN}", f"b {OPEN}", f"a {WEB}", f"b {WEB}", f"a {RENEW}", f"b {ATTACH}", f"c {RENEW}", f"a {SHOW}", f"b {SHOW}"]
        for threads in "1", "2", "4":
            with self.subTest(threads=threads):
                came = self.run_on(PCEF_MANY, ["--threads", threads, "profile.toml"], lines(*given))
                told = came.wrote.decode().splitlines()
                shown = [json.loads(answer[2:]) for answer in told if '"active"' in answer]
                self.assertEqual([one["active"] for one in shown], [["web"], ["web"]])
                self.assertIn(f"a {renewed()}", told)
                self.assertIn(f"c {NO_SESSION}", told)

    def test_a_key_that_used_its_grant_up_reports_no_more(self):
        before = [WEB, SUBSCRIBE, monitor("vid", 20), ATTACH, TAKE, FLUSH, FINISH]
        answer, told = self.after(before, [ATTACH, TAKE, FLUSH, line(do="report", key="vid")])
        self.assertEqual(answer, renewed([(1, "vid", 0)]))
        self.assertEqual(json.loads(told[2])["reports"], [])
        self.assertEqual(json.loads(told[3])["reports"], [{"cause": "Requested", "key": "vid", "number": 0, "octets": PACKET}])

    def test_a_threshold_comes_at_the_same_packet(self):
        for waiting in 0, 1, 2:
            with self.subTest(packets_before=waiting):
                before = [WEB, SUBSCRIBE, monitor("vid", 3 * PACKET), ATTACH, *[TAKE] * waiting, FINISH]
                later = [ATTACH, *[TAKE, FLUSH] * (3 - waiting)]
                answer, told = self.after(before, later)
                self.assertEqual(answer, renewed([(0, "vid", waiting * PACKET)]))
                reports = [json.loads(text)["reports"] for text in told[2::2]]
                due = {"cause": "Threshold", "key": "vid", "number": 0, "octets": (3 - waiting) * PACKET}
                self.assertEqual(reports, [[]] * (2 - waiting) + [[due]])

    def test_bearers_keep_their_numbers_or_are_told_the_new_ones(self):
        before = [voice("a", 1), voice("b", 2), voice("c", 3), line(do="remove", name="a")]
        answer, told = self.after(before, [SHOW, voice("d", 4), line(do="lose", bearer=6)])
        self.assertEqual(answer, renewed(bearers=[(8, 6), (7, 7)]))
        self.assertEqual([bearer["id"] for bearer in json.loads(told[0])["bearers"]], [5, 6, 7])
        self.assertEqual(json.loads(told[1])["bearer"], 8)
        # Who names a bearer by the number that it had loses another rule: here `c`, and not one that was on 6 before.
        self.assertEqual(json.loads(told[2])["reports"], [{"cause": "BearerLost", "number": 0, "rule": "c"}])

    def test_keys_that_are_on_come_first_then(self):
        before = [install("r", key="a"), monitor("b", 50, level="session")]
        answer, told = self.after(before, [SHOW])
        self.assertEqual(answer, renewed([(0, "b", 0)]))
        self.assertEqual([key["key"] for key in json.loads(told[0])["keys"]], ["b", "a"])

    def test_a_key_that_is_off_and_in_no_rule_is_forgotten(self):
        eight = [text for n in range(8) for text in (monitor(f"k{n}", 9), line(do="stop", key=f"k{n}"))]
        full = '{"name":"KeysFull","refused":12}'
        self.assertEqual(self.answers([OPEN, *eight, monitor("k8", 9)])[-1], full)
        _, told = self.after(eight, [line(do="report", key="k0"), monitor("k8", 9, level="session"), SHOW])
        self.assertEqual(told[0], '{"name":"UnknownKey","refused":6}')
        self.assertEqual([key["key"] for key in json.loads(told[2])["keys"]], ["k8"])

    def test_a_level_of_a_forgotten_key_is_free_again(self):
        before = [monitor("k", 9, level="session"), line(do="stop", key="k")]
        self.assertEqual(self.answers([OPEN, *before, monitor("k", 9)])[-1], '{"name":"LevelClash","refused":20}')
        _, told = self.after(before, [monitor("k", 9)])
        self.assertEqual(json.loads(told[0])["ok"], True)

    def test_what_no_report_had_is_reported_at_the_end(self):
        # The commands are used up, so a report is refused, and the octets come with the renewal.
        before = [WEB, monitor("vid", 1000), ATTACH, TAKE, FINISH, line(do="report", key="no"), *[monitor("vid", 999)] * 2]
        told = self.answers([OPEN, *before, line(do="report", key="vid"), RENEW, SHOW], commands=4)
        self.assertEqual(told[-3], COMMANDS_FULL)
        self.assertEqual(told[-2], renewed([(0, "vid", PACKET)]))
        self.assertEqual(json.loads(told[-1])["keys"], [{"key": "vid", "on": True, "reported": 0, "unreported": 0}])

    def test_late_octets_of_a_key_that_is_off_are_reported(self):
        off = [WEB, monitor("vid", 1000), ATTACH, line(do="stop", key="vid"), TAKE, FINISH, line(do="remove", name="web")]
        answer, told = self.after(off, [SHOW])
        self.assertEqual(json.loads(told[0])["keys"], [])
        reported = sum(report["octets"] for text in [*self.answers([OPEN, *off]), answer] for report in json.loads(text).get("reports", []))
        self.assertEqual(reported, PACKET)

    def test_a_closed_session_stays_closed(self):
        before = [WEB, monitor("vid", 1000), ATTACH, TAKE, CLOSE, FINISH]
        answer, told = self.after(before, [ATTACH, WEB, RENEW])
        # The `close` took the rules away, which was reported; the packet came after it.
        self.assertEqual(answer, renewed([(1, "vid", PACKET)]))
        closed = '{"name":"Closed","refused":2}'
        self.assertEqual(told[:2], [closed, closed])
        self.assertEqual(json.loads(told[2])["ok"], True)

    def test_rows_that_find_no_room_are_lost_whole(self):
        before = [WEB, monitor("vid", 1000), ATTACH, *[TAKE] * 3, FINISH, line(do="abandon", worker=0)]
        told = self.answers([OPEN, *before, RENEW], rows=2)
        self.assertEqual(told[6], '{"ok":true,"waiting":3}')
        self.assertEqual(told[7], '{"name":"RowsFull","refused":2}')
        self.assertEqual(told[8], '{"abandoned":3,"ok":true,"rows":0}')
        self.assertEqual(told[9], renewed([(0, "vid", 0)]))

    def test_workers_come_anew_and_hold_the_newest_generation(self):
        before = [ATTACH, line(do="abandon", worker=0), ATTACH, WEB, line(do="finish", worker=1)]
        answer, told = self.after(before, [take(DNS_ANSWER, worker=1), ATTACH, TAKE, FLUSH, REFRESH])
        self.assertEqual(answer, renewed())
        self.assertEqual(told[0], '{"name":"NoWorker","refused":0}')
        self.assertEqual(told[1], '{"generation":1,"ok":true,"worker":0}')
        self.assertEqual(json.loads(told[3])["verdicts"][0]["rule"], "web")

    def test_the_next_renewal_gives_the_same_session(self):
        before = [
            WEB,
            voice("b", 2, key="k"),
            line(do="activate", name="pre-dns"),
            voice("c", 3),
            line(do="remove", name="b"),
            monitor("all", 7000, level="session"),
            monitor("vid", 50),
            line(do="triggers", events=["USAGE_REPORT", "RAT_CHANGE"]),
        ]
        _, told = self.after(before, [SHOW, RENEW, SHOW, RENEW, SHOW])
        self.assertEqual(told[0], told[2])
        self.assertEqual(told[0], told[4])
        self.assertEqual(told[1], renewed([(0, "vid", 0), (1, "all", 0)], [(6, 6)]))
        self.assertEqual(told[1], told[3])

    def test_a_session_goes_on_beyond_its_rows(self):
        """100,000 packets of two keys over rows for 10,000 and 40 commands, beside one session with room for all."""
        batch, batches, rows = 32, 3125, 10000
        grants = {"vid": 700 * PACKET - 5, "all": 2000 * PACKET}
        begin = [WEB, SUBSCRIBE, monitor("vid", grants["vid"]), monitor("all", grants["all"], level="session"), ATTACH]
        given, due, left = [OPEN, *begin], [], rows
        octets = {"vid": 0, "all": 0}
        alone, thresholds = [OPEN, *begin], []
        whole = {"vid": 0, "all": 0}
        for number in range(batches):
            if left < batch:
                given += [FINISH, RENEW, ATTACH]
                due += [("Terminated", key, octets[key], number) for key in octets]
                octets, left = {"vid": 0, "all": 0}, rows
            given += [*[TAKE] * batch, FLUSH]
            alone += [*[TAKE] * batch, FLUSH]
            left -= batch
            for key, grant in grants.items():
                octets[key] += batch * PACKET
                whole[key] += batch * PACKET
                if whole[key] >= grant:
                    more = {"level": "session"} if key == "all" else {}
                    given.append(monitor(key, grant, **more))
                    alone.append(monitor(key, grant, **more))
                    due.append(("Threshold", key, octets[key], number))
                    thresholds.append(("Threshold", key, whole[key], number))
                    octets[key] = whole[key] = 0
        self.assertEqual(self.reports_by_batch(given, rows=rows, commands=40), due)
        self.assertEqual(self.reports_by_batch(alone, rows=1000000, commands=10000), thresholds)
        self.assertEqual([place for place in due if place[0] == "Threshold"][0], thresholds[0])
        reported = Counter()
        for _, key, count, _ in due:
            reported[key] += count
        self.assertEqual({key: reported[key] + octets[key] for key in grants}, dict.fromkeys(grants, batch * batches * PACKET))

    def reports_by_batch(self, given, **parts):
        """Each usage report's cause, key and octets, with the number of flushes before that which made it."""
        found, flushes = [], 0
        for text in self.answers(given, **parts):
            told = json.loads(text)
            self.assertNotIn("refused", told)
            for report in told.get("reports", []):
                found.append((report["cause"], report["key"], report["octets"], flushes))
            flushes += "verdicts" in told and "rows" not in told
        return found
