"""Finds our programs and those of the peers, builds what isn't there, and measures runs: instructions, times, memory."""
import glob
import os
import re
import shutil
import subprocess
import sys
import time

FOLDER = "out/beside"
SOURCES = ".ci/beside.d"
PACKAGES = ("librte-acl23", "libbsd-dev", "valgrind")
DPDK = f"{FOLDER}/dpdk/usr"


def fail(text):
    sys.exit(f"beside: {text}")


def run(words, **how):
    ran = subprocess.run(words, stdout=subprocess.PIPE, stderr=subprocess.PIPE, **how)
    if ran.returncode:
        fail(f"{' '.join(words[:4])} .. ends with {ran.returncode}: {ran.stderr[-400:].decode(errors='replace')}")
    return ran


def first_line(*words):
    return run(words).stdout.decode().splitlines()[0]


# ---- our programs

class Ours:
    """A program of this repository, or the library for C: the proved build, or one without proof."""

    def __init__(self, crate, is_quick):
        name = "libpcef_c" if crate == "pcef_c" else crate
        end = ".a" if crate == "pcef_c" else ""
        proved, quick = f"crates/{crate}/out/{name}{end}", f"crates/{crate}/out/quick/{name}.unchecked{end}"
        self.crate = crate
        if not is_quick and os.path.exists(proved):
            self.path, self.kind = proved, "proved"
        else:
            self.path, self.kind = quick, "not proved: ./dev quick --unchecked"
            if not os.path.exists(quick) or is_older(quick):
                print(f"beside: building {quick}", file=sys.stderr)
                run(["./dev", "quick", "--unchecked", crate])
        if is_older(self.path):
            self.kind += ", older than the sources"

    def __str__(self):
        return self.path


def is_older(path):
    sources = glob.glob("crates/*/src/**/*.rt", recursive=True)
    return os.path.getmtime(path) < max(map(os.path.getmtime, sources))


def kit():
    return os.path.dirname(os.path.dirname(os.path.realpath(shutil.which("rt") or fail("there is no rt on the path"))))


def build_driver(library):
    """`ours`, over the library for C."""
    made = f"{FOLDER}/ours"
    run(["gcc", "-O2", "-o", made, f"{SOURCES}/ours.c", "-Iinclude", str(library), f"{kit()}/c/libos_c.a",
         f"{kit()}/c/liblibc_c.a"])
    return made


# ---- the peers

RUST = ["rustc", "--edition", "2021", "-C", "opt-level=3", "-C", "codegen-units=1"]
ACL = ["gcc", "-O3", "-march=native"]


def build_rust(name):
    run([*RUST, "-o", f"{FOLDER}/{name}", f"{SOURCES}/{name}.rs"])
    return f"{FOLDER}/{name}"


def install():
    """Debian's packages, and the headers of DPDK beside them: its own package of them wants two hundred others."""
    run(["apt-get", "update"])
    run(["apt-get", "install", "-y", "--no-install-recommends", *PACKAGES])
    os.makedirs(f"{FOLDER}/dpdk", exist_ok=True)
    run(["apt-get", "download", "libdpdk-dev"], cwd=f"{FOLDER}/dpdk")
    run(["dpkg", "-x", *glob.glob(f"{FOLDER}/dpdk/libdpdk-dev_*.deb")[-1:], f"{FOLDER}/dpdk"])


def build_acl():
    """The program over rte_acl, or nothing where DPDK isn't there."""
    made = f"{FOLDER}/acl"
    if os.path.exists(f"{DPDK}/include/dpdk/rte_acl.h"):
        over = [f"-I{DPDK}/include/dpdk", f"-I{DPDK}/include/x86_64-linux-gnu/dpdk", "-l:librte_acl.so.23",
                "-l:librte_eal.so.23"]
    elif not subprocess.run(["pkg-config", "--exists", "libdpdk"], stderr=subprocess.DEVNULL).returncode:
        told = run(["pkg-config", "--cflags", "--libs", "libdpdk"]).stdout.decode().split()
        # What it says of the processor would undo what we say.
        over = [word for word in told if not word.startswith("-march")]
    else:
        return None
    run([*ACL, "-o", made, f"{SOURCES}/acl.c", *over])
    return made


# ---- measures

def instructions(words, toggle=None, stdin=None):
    """Instructions of a run by callgrind, or those within a function."""
    within = [f"--toggle-collect={toggle}"] if toggle else []
    with open(stdin or os.devnull, "rb") as file:
        ran = run(["valgrind", "--tool=callgrind", "--callgrind-out-file=/dev/null", *within, *map(str, words)], stdin=file)
    return int(re.search(rb"Collected : (\d+)", ran.stderr).group(1))


def instructions_in(words, crates, toggle):
    """Those within a function that are of functions of some crates."""
    path = f"{FOLDER}/callgrind.out"
    run(["valgrind", "--tool=callgrind", f"--callgrind-out-file={path}", f"--toggle-collect={toggle}", *map(str, words)])
    names, total, counts, is_call = {}, 0, False, False
    with open(path, encoding="utf-8", errors="replace") as file:
        for line in file:
            named = re.match(r"(c?)fn=\((\d+)\)(?: (.*))?$", line)
            if named:
                names.setdefault(named[2], named[3])
                counts = counts if named[1] else names[named[2]].split("::")[0] in crates
            elif line.startswith("calls="):
                is_call = True
            elif re.match(r"[-+*\d]", line):
                total += int(line.split()[1]) if counts and not is_call else 0
                is_call = False
    return total


def instructions_each(words_of, few, many, each=1, **how):
    """Instructions of one of `many` turns over those of `few`, divided by what a turn has."""
    return (instructions(words_of(many), **how) - instructions(words_of(few), **how)) / (many - few) / each


def seconds(words, stdin=None, stdout=os.devnull):
    """Seconds of a processor that a run took."""
    with open(stdin or os.devnull, "rb") as given, open(stdout, "wb") as taken:
        process = subprocess.Popen([*map(str, words)], stdin=given, stdout=taken, stderr=subprocess.PIPE)
        said = process.stderr.read()
        _, status, used = os.wait4(process.pid, 0)
        process.returncode = status
    if status:
        fail(f"{words[0]} ends with {status}: {said[-400:].decode(errors='replace')}")
    return used.ru_utime + used.ru_stime


def most_resident(words, stdin):
    """The most octets of memory that a run had. It is asked again and again: what wait4() tells has our own in it."""
    most = 0
    with open(stdin, "rb") as given:
        process = subprocess.Popen([*map(str, words)], stdin=given, stdout=subprocess.DEVNULL)
        while process.poll() is None:
            with open(f"/proc/{process.pid}/status", encoding="ascii") as file:
                told = re.search(r"^VmHWM:\s*(\d+) kB", file.read(), re.M)
            most = max(most, int(told[1]) * 1024 if told else 0)
            time.sleep(0.002)
    if process.returncode:
        fail(f"{words[0]} ends with {process.returncode}")
    return most


def least_seconds(words, times=3, **how):
    return min(seconds(words, **how) for _ in range(times))


def time_each(words_of, few, many, each):
    """Nanoseconds of one of what a turn has, by the least time of `many` turns less that of `few`."""
    return (least_seconds(words_of(many)) - least_seconds(words_of(few))) / (many - few) / each * 1e9


def most_held(words):
    """The most octets that a run holds of the heap, by massif."""
    path = f"{FOLDER}/massif.out"
    run(["valgrind", "--tool=massif", "--peak-inaccuracy=0", f"--massif-out-file={path}", *map(str, words)])
    with open(path, encoding="utf-8") as file:
        return max(int(octets) for octets in re.findall(r"^mem_heap_B=(\d+)", file.read(), re.M))
