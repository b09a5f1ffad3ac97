"""Installs a rule, counts a packet for a key by a worker, and shows it: the library for C from Python, by cffi.
    python3 count.py PROFILE.toml
pkg-config says where the library is."""
import subprocess
import sys

from cffi import FFI

ffi = FFI()
ffi.cdef("""
typedef struct pcef_session pcef_session;
typedef struct pcef_worker pcef_worker;
typedef struct { const uint8_t *octets; size_t length; size_t whole; uint8_t up; } pcef_packet;
typedef struct { uint32_t generation; uint8_t status; uint8_t bearer; uint8_t place; uint8_t slots; } pcef_verdict;
size_t pcef_size(void);
void pcef_room(pcef_session *at);
uint8_t pcef_open(pcef_session *at, const uint8_t *profile, size_t profile_length);
size_t pcef_line(pcef_session *at, const uint8_t *line, size_t line_length, uint8_t *answer, size_t answer_room);
uint8_t pcef_close(pcef_session *at);
size_t pcef_worker_size(void);
void pcef_worker_room(pcef_worker *worker);
uint8_t pcef_attach(pcef_session *at, pcef_worker *worker);
size_t pcef_take(pcef_worker *worker, const pcef_packet *packets, size_t packet_count, pcef_verdict *verdicts,
                 size_t verdict_count);
uint64_t pcef_finish(pcef_session *at, pcef_worker *worker);
void *aligned_alloc(size_t alignment, size_t size);
void free(void *at);
""")
FOLDER = subprocess.run(["pkg-config", "--variable=libdir", "pcef"], stdout=subprocess.PIPE, text=True, check=True)
pcef = ffi.dlopen(f"{FOLDER.stdout.strip()}/libpcef.so.1")
libc = ffi.dlopen(None)

LINES = [
    b'{"do":"install","rule":{"name":"web","precedence":100,'
    b'"filters":[{"text":"permit out 17 from any 53 to assigned"}],"qci":9,'
    b'"arp":{"level":8,"capability":false,"vulnerability":true},"gate":"ENABLED","key":"vid"}}',
    b'{"do":"monitor","key":"vid","grant":1000}',
]
PACKET = bytes.fromhex("4500001c0000000040110000c63364070a0000020035138800080000")


def room(size, kind):
    """Memory of a handle."""
    at = libc.aligned_alloc(16, (size + 15) // 16 * 16)
    if at == ffi.NULL:
        raise MemoryError
    return ffi.cast(kind, at)


def answer(session, line):
    text = ffi.new("uint8_t[]", 65536)
    length = pcef.pcef_line(session, line, len(line), text, 65536)
    if length > 65536:
        raise MemoryError
    return bytes(ffi.buffer(text, length)).decode()


def main():
    with open(sys.argv[1], "rb") as file:
        profile = file.read()
    session, worker = room(pcef.pcef_size(), "pcef_session *"), room(pcef.pcef_worker_size(), "pcef_worker *")
    pcef.pcef_room(session)
    pcef.pcef_worker_room(worker)
    if pcef.pcef_open(session, profile, len(profile)):
        return 1
    for line in LINES:
        answer(session, line)
    octets = ffi.from_buffer("uint8_t[]", PACKET)
    packet = ffi.new("pcef_packet *", {"octets": octets, "length": len(PACKET), "whole": len(PACKET), "up": 0})
    verdict = ffi.new("pcef_verdict *")
    if pcef.pcef_attach(session, worker) > 15 or pcef.pcef_take(worker, packet, 1, verdict, 1) != 1 or verdict.status:
        return 1
    if pcef.pcef_finish(session, worker) >= 2**64 - 7:
        return 1
    print(answer(session, b'{"do":"show"}'))
    pcef.pcef_close(session)
    libc.free(worker)
    libc.free(session)
    return 0


sys.exit(main())
