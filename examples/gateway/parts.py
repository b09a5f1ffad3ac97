"""The parts of the plays in this folder: network namespaces, the PCRF, the gateway, and what each of them says.

One namespace each is the gateway's, the PCRF's and the network's, and each device of users has one. What is made has the
process's number in its name, and goes when the play ends, also by SIGINT or SIGTERM. Python 3.8.
"""
import json
import os
import shutil
import signal
import subprocess
import sys
import tempfile
import time

HERE = os.path.dirname(os.path.abspath(__file__))
TOP = os.path.dirname(os.path.dirname(HERE))
NETWORK = ("198.51.100.7", "2001:db8:ffff::7")
GATEWAY, PCRF = "192.0.2.1", "192.0.2.2"
FILES = ("/usr/include/freeDiameter/extension.h", "/usr/lib/freeDiameter/dict_dcca_3gpp.fdx", "/dev/net/tun")
WORDS = ("rt", "gcc", "ip", "setpriv", "unshare", "openssl", "freeDiameterd")
ARP = "Allocation-Retention-Priority{Priority-Level=8 Pre-emption-Capability=1 Pre-emption-Vulnerability=0}"


def library():
    """The library for C: that of $PCEF_C, else the gate's, else that of .ci/quick, which is not proved."""
    proved, quick = (f"{TOP}/crates/pcef_c/out/{folder}libpcef_c.a" for folder in ("", "quick/"))
    return os.path.abspath(os.environ.get("PCEF_C", proved if os.path.exists(proved) else quick))


def lacks(*words):
    """What isn't there of all that a play needs."""
    missing = [word for word in (*WORDS, *words) if not shutil.which(word)]
    missing += [path for path in (library(), *FILES) if not os.path.exists(path)]
    if os.getuid():
        return missing + ["root"]
    spaces = subprocess.run(["unshare", "-n", "true"], stderr=subprocess.DEVNULL, check=False).returncode == 0
    return missing + ([] if spaces else ["network namespaces"])


def is_quick():
    return "/quick/" in library()


def run(*words, **how):
    how = {"check": True, "stdout": subprocess.PIPE, "text": True, **how}
    return subprocess.run(list(map(str, words)), **how).stdout


def waits(what, holds, seconds=20):
    """Waits until it holds, and returns what came of it."""
    until = time.monotonic() + seconds
    while not (came := holds()):
        if time.monotonic() > until:
            raise TimeoutError(what)
        time.sleep(0.01)
    return came


# ---- What the PCRF says

def flow(text, direction=3):
    return f'Flow-Information{{Flow-Description="{text}" Flow-Direction={direction}}}'


def rule(name, precedence, *flows, key=None, gate=2, qci=9, rate=0):
    """A Charging-Rule-Install of one rule."""
    rates = f"Guaranteed-Bitrate-UL={rate} Guaranteed-Bitrate-DL={rate} " if rate else ""
    key = f' Monitoring-Key="{key}"' if key else ""
    return (f'Charging-Rule-Install{{Charging-Rule-Definition{{Charging-Rule-Name="{name}" {" ".join(map(flow, flows))} '
            f"Flow-Status={gate} QoS-Information{{QoS-Class-Identifier={qci} {rates}{ARP}}} "
            f"Precedence={precedence}{key}}}}}")


def remove(name):
    return f'Charging-Rule-Remove{{Charging-Rule-Name="{name}"}}'


def grant(key, octets, level=1):
    """Octets of a key that a rule has, or with 0 of one that the whole session has."""
    return (f'Usage-Monitoring-Information{{Monitoring-Key="{key}" Granted-Service-Unit{{CC-Total-Octets={octets}}} '
            f"Usage-Monitoring-Level={level}}}")


REPORTS = "Event-Trigger=33"


class Message(dict):
    """A line of the PCRF: what it heard or sent. `usage` and `rule` are lists, the rest single values."""

    def __init__(self, line):
        kind, *pairs = json.loads(line)
        super().__init__(kind=kind, usage=[], rule=[])
        for name, *values in pairs:
            if name in ("usage", "rule"):
                self[name].append(dict(values))
            else:
                self[name] = values[0]


class Place:
    """The namespaces, and all that runs in them; a context that leaves nothing behind."""

    def __init__(self, devices=1):
        self.name, self.started = f"pcef{os.getpid()}", []
        self.is_busy, self.is_interrupted = False, False
        self.spaces = ["gw", "pcrf", "net", *(f"u{n}" for n in range(1, devices + 1))]

    def interrupt(self, *_):
        """Ends the play, but not between a process that begins and the list of those that began, nor amid the end."""
        self.is_interrupted = True
        if not self.is_busy:
            sys.exit(1)

    def __enter__(self):
        for number in (signal.SIGINT, signal.SIGTERM):
            signal.signal(number, self.interrupt)
        self.folder = tempfile.mkdtemp(prefix=f"{self.name}.")
        try:
            for space in self.spaces:
                run("ip", "netns", "add", f"{self.name}{space}")
                run(*self.inside(space, "ip", "link", "set", "lo", "up"))
            # freeDiameter says in its CER where it is, and won't say 127.0.0.1.
            peer = ("peer", "name", "gx", "netns", f"{self.name}pcrf")
            run(*self.inside("gw", "ip", "link", "add", "gx", "type", "veth", *peer))
            for space, address in (("gw", GATEWAY), ("pcrf", PCRF)):
                run(*self.inside(space, "ip", "addr", "add", f"{address}/24", "dev", "gx"))
                run(*self.inside(space, "ip", "link", "set", "gx", "up"))
            for space in self.spaces[2:]:  # they stay when a gateway ends, with their counters
                run(*self.inside("gw", "ip", "tuntap", "add", self.name + space, "mode", "tun", "multi_queue"))
        except BaseException:
            self.__exit__()
            raise
        return self

    def __exit__(self, *_):
        self.is_busy = True
        for process in reversed(self.started):
            process.kill()
            process.wait()
        for space in self.spaces:
            run("ip", "netns", "del", f"{self.name}{space}", check=False, stderr=subprocess.DEVNULL)
        shutil.rmtree(self.folder, ignore_errors=True)

    def inside(self, space, *words):
        return ["ip", "netns", "exec", f"{self.name}{space}", *map(str, words)]

    def start(self, space, *words, **how):
        """A process that ends with this one, whatever ends it."""
        how = {"cwd": self.folder, "stdout": subprocess.DEVNULL, "stderr": subprocess.DEVNULL, "text": True, **how}
        self.is_busy = True
        self.started.append(subprocess.Popen(["setpriv", "--pdeathsig", "KILL", *self.inside(space, *words)], **how))
        self.is_busy = False
        if self.is_interrupted:
            sys.exit(1)
        return self.started[-1]

    def device(self, space):
        return f"{self.name}{space}"

    def take_back(self):
        """Brings the devices to the gateway's namespace, where it opens them."""
        for space in self.spaces[2:]:
            run(*self.inside(space, "ip", "link", "set", self.device(space), "netns", f"{self.name}gw"), check=False,
                stderr=subprocess.DEVNULL)

    def move_device(self, space, addresses, peers):
        """Gives a device that the gateway has opened to its namespace, with addresses, and nothing that speaks by itself."""
        device = self.device(space)
        run(*self.inside("gw", "ip", "link", "set", device, "netns", self.name + space))
        script = f"echo 1 > /proc/sys/net/ipv6/conf/{device}/addr_gen_mode"
        script += f"; ip link set {device} txqueuelen 10000 multicast off up"
        for address in addresses:
            more = ("128", "nodad") if ":" in address else ("32", "")
            script += f"; ip addr add {address}/{more[0]} dev {device} {more[1]}"
        for peer in peers:
            script += f"; ip route add {peer} dev {device}"
        run(*self.inside(space, "sh", "-ec", script))

    def counter(self, space, name):
        return int(run(*self.inside(space, "cat", f"/sys/class/net/{self.device(space)}/statistics/{name}")))

    def octets(self, space):
        """What the device's user sent, and what came to it."""
        return self.counter(space, "tx_bytes"), self.counter(space, "rx_bytes")


# Sends packets of a length from sixteen ports, many a call: the kernel cuts them apart (UDP_SEGMENT).
SENDER = """import socket
many, length = b'x' * (%(length)d - 28) * 40, %(length)d - 28
ports = [socket.socket(socket.AF_INET, socket.SOCK_DGRAM) for _ in range(16)]
for port in ports:
    port.setsockopt(socket.SOL_UDP, 103, length)
    port.connect(('%(to)s', 9))
while True:
    for port in ports:
        port.send(many)"""
# A port that nobody reads: what comes is dropped there.
SINK = f"""import socket, time
port = socket.socket(socket.AF_INET, socket.SOCK_DGRAM)
port.bind(('{NETWORK[0]}', 9))
time.sleep(600)"""


def flood(place, space, length):
    """A user sends as fast as it can. Returns the processes of both ends."""
    sink = place.start("net", sys.executable, "-c", SINK)
    waits("the port is there", lambda: ":9 " in run(*place.inside("net", "ss", "-Hlun")))
    return place.start(space, sys.executable, "-c", SENDER % {"length": length, "to": NETWORK[0]}), sink


class Pcrf:
    """freeDiameter with the extension of examples/gx."""

    def __init__(self, place, *rules):
        self.place, folder = place, place.folder
        self.fifo, self.heard_path = f"{folder}/commands", f"{folder}/heard"
        run("gcc", "-Wall", "-Wextra", "-Werror", "-O1", "-shared", "-fPIC", "-o", f"{folder}/gx_pcrf.fdx",
            f"{TOP}/examples/gx/gx_pcrf.c", "-lfdcore", "-lfdproto", "-lpthread")
        run("openssl", "req", "-new", "-batch", "-x509", "-days", "2", "-nodes", "-newkey", "rsa:2048", "-out",
            f"{folder}/cert.pem", "-keyout", f"{folder}/key.pem", "-subj", "/CN=*.example.net", stderr=subprocess.DEVNULL)
        shutil.copy(f"{TOP}/examples/gx/acl.conf", folder)
        with open(f"{TOP}/examples/gx/pcrf.conf", encoding="utf-8") as file:
            text = file.read().replace('"rules.conf"', '"rules.conf commands heard"').replace("127.0.0.1", PCRF)
        self.write("pcrf.conf", text)
        self.write("rules.conf", "".join(f"{line}\n" for line in rules))
        self.write("heard", "")
        os.mkfifo(self.fifo)
        self.start()

    def write(self, name, text):
        with open(f"{self.place.folder}/{name}", "w", encoding="utf-8") as file:
            file.write(text)

    def start(self):
        with open(f"{self.place.folder}/pcrf.log", "w", encoding="utf-8") as log:
            self.process = self.place.start("pcrf", "freeDiameterd", "-c", "pcrf.conf", stdout=log, stderr=log)
        waits("the PCRF starts", lambda: "daemon initialized" in self.log())
        self.commands = open(self.fifo, "w", encoding="utf-8", buffering=1)

    def log(self):
        with open(f"{self.place.folder}/pcrf.log", encoding="utf-8", errors="replace") as file:
            return file.read()

    def rar(self, session, *avps):
        self.commands.write(f"rar {session} {' '.join(avps)}\n")

    def heard(self, kind=None, **values):
        with open(self.heard_path, encoding="utf-8") as file:
            lines = [Message(line) for line in file if line.endswith("\n")]
        return [line for line in lines if kind in (None, line["kind"]) and all(line.get(n) == v for n, v in values.items())]

    def waits(self, count, kind, **values):
        """The first so many messages of a kind, once they came."""
        def holds():
            came = self.heard(kind, **values)
            return came if len(came) >= count else None
        return waits(f"{count} {kind} with {values}", holds)

    def usage(self, *sessions):
        """The octets of each key that CCRs told of these sessions, each CCR once, however often it came."""
        told = {}
        once = {(ccr["session"], ccr["number"]): ccr for ccr in self.heard("CCR") if ccr["session"] in sessions}
        for ccr in once.values():
            for usage in ccr["usage"]:
                told[usage["key"]] = told.get(usage["key"], 0) + usage["octets"]
        return told


class Gateway:
    """The gateway, its devices and its log."""

    def __init__(self, place, workers, *options, before=(), profile=None, flags=()):
        self.place, folder = place, place.folder
        self.metrics, self.faults = f"{folder}/metrics", f"{folder}/gateway.faults"
        if not os.path.exists(f"{folder}/gateway"):
            self.build(f"{folder}/gateway", *flags)
        shutil.copy(f"{HERE}/peers.conf", folder)
        with open(f"{HERE}/gateway.toml", encoding="utf-8") as file:
            text = file.read()
        for old, new in (profile or {}).items():
            text = text.replace(old, new)
        with open(f"{folder}/gateway.toml", "w", encoding="utf-8") as file:
            file.write(text)
        devices = [place.device(space) for space in place.spaces[2:]]
        words = [*before, f"{folder}/gateway", *options, "-m", self.metrics, "gateway.toml", "peers.conf", workers, *devices]
        self.log_path = f"{folder}/gateway.{len(place.started)}.log"
        place.take_back()
        with open(self.log_path, "w", encoding="utf-8") as log, open(self.faults, "w", encoding="utf-8") as faults:
            self.process = place.start("gw", *words, stdin=subprocess.PIPE, stdout=log, stderr=faults)
        waits("the gateway starts", lambda: "ready\n" in self.text() or self.has_ended(), 60)
        self.lines = self.process.stdin

    @staticmethod
    def build(path, *more):
        kit = os.path.join(os.path.dirname(os.path.dirname(os.path.realpath(shutil.which("rt")))), "c")
        sources = sorted(f"{HERE}/{name}" for name in os.listdir(HERE) if name.endswith(".c"))
        flags = ["-std=gnu11", "-O2", "-g", "-pthread", "-Wall", "-Wextra", "-Werror", f"-I{TOP}/include"]
        run("gcc", *flags, *more, *sources, library(), f"{kit}/libos_c.a", f"{kit}/liblibc_c.a", "-lfdcore", "-lfdproto", "-o", path)

    def has_ended(self):
        if self.process.poll() is not None:
            with open(self.faults, encoding="utf-8") as file:
                raise RuntimeError(f"the gateway ended by {self.process.returncode}: {file.read()[-2000:]}")
        return False

    def text(self):
        with open(self.log_path, encoding="utf-8") as file:
            return file.read()

    def log(self, **values):
        whole = [line for line in self.text().splitlines(keepends=True) if line.startswith("{") and line.endswith("}\n")]
        lines = map(json.loads, whole)
        return [line for line in lines if all(line.get(name) == value for name, value in values.items())]

    def says(self, line):
        self.lines.write(f"{line}\n")
        self.lines.flush()

    def waits(self, count, **values):
        def holds():
            came = self.log(**values)
            return came if len(came) >= count else self.has_ended()
        return waits(f"{count} lines with {values} in the gateway's log", holds)

    def open(self, address, subscriber, device=1):
        """A user comes. Returns the Session-Id of its session, once that is open."""
        self.says(f"open {address} {subscriber} {device}")
        session = self.waits(1, user=address, **{"is": "comes"})[-1]["session"]
        self.waits(1, user=address, **{"is": "opened"})
        return session

    def leave(self, address):
        self.says(f"leave {address}")
        return self.waits(1, user=address, **{"is": "ended"})[-1]

    def end(self):
        """All users leave, by SIGTERM. Returns the lines of their ends."""
        self.process.send_signal(signal.SIGTERM)
        self.process.wait(30)
        return self.log(**{"is": "ended"})

    def metric(self, name):
        with open(self.metrics, encoding="utf-8") as file:
            found = [line.split() for line in file if line.startswith(name)]
        return {words[0]: int(words[1]) for words in found}
