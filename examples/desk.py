#!/usr/bin/env python3
"""The monitor's two channels on a test desk: what loop.c prints, by the same calls from Python.

desk.py LIBRARY KIT [CYCLES]    KIT and CYCLES are those of loop.c. LIBRARY is the archive as a shared object:
cc -shared -o libaxis_monitor.so -Wl,--whole-archive libaxis_monitor.a -Wl,--no-whole-archive
"""
import struct
import sys
from ctypes import CDLL, byref, c_int32, c_size_t, c_uint8, c_uint32

RANKS = "NONE E D C B A".split()
CAUSES = "- UNUSABLE SBH SG SE STOP-A STOP-C STOP-D STOP-E HOLD POSITION INPUTS DATUM F DIRECTION".split()
Data, State, Report, Codes = c_int32 * 72, c_uint32 * 26, c_uint32 * 4, c_uint8 * 13


def main(library, kit, cycles=None):
    monitor = CDLL(library)
    if monitor.monitor_interface() != 7:
        sys.exit("desk: the library has another interface")
    monitor.monitor_report.argtypes = [Data, State, c_int32, c_uint32, Report]
    monitor.monitor_cycle.argtypes = [Data, State, c_int32, c_uint32, c_uint32, Report, Codes]
    monitor.monitor_cycle.restype = c_uint32
    monitor.monitor_device_word.argtypes = [c_uint32, c_uint32]
    kit = open(kit, "rb").read()
    words, channels, used = struct.unpack(f">{len(kit) // 4}I", kit), [], c_size_t()
    for part in "AB":
        data, state, lent = Data(), State(), (c_uint32 * len(words))(*words)
        refused = monitor.monitor_read_list(lent, c_size_t(len(words)), data, state, byref(used))
        if refused:
            print(f"refused {refused} {used.value} {part}")
            sys.exit(1)
        channels.append((data, state))
        words = words[used.value :]
    lines = (line.split("#")[0].split() for line in (open(cycles) if cycles else sys.stdin))
    for cycle, (at_a, in_a, at_b, in_b, *ack) in enumerate(filter(None, lines), 1):
        given, reports, codes = [(int(at_a), int(in_a, 16)), (int(at_b), int(in_b, 16))], [Report(), Report()], [Codes(), Codes()]
        for side in (0, 1):
            monitor.monitor_report(*channels[side], *given[side], reports[side])
        a, b = [monitor.monitor_cycle(*channels[side], *given[side], "ack" in ack, reports[1 - side], codes[side]) for side in (0, 1)]
        device = monitor.monitor_device_word(a, b)
        causes = [",".join(CAUSES[code] for code in filter(None, stand)) or "-" for stand in codes]
        print(f"{cycle} {a:08x} {b:08x} {device:x} {RANKS[device >> 1]} A:{causes[0]} B:{causes[1]}")


if __name__ == "__main__":
    main(*sys.argv[1:]) if len(sys.argv) in (3, 4) else sys.exit(__doc__)
