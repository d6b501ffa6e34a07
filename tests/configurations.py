#!/usr/bin/env python3
"""Breaks each rule of a configuration, one by one, and reads what the built program says of it: `cosim direct`.

A row is a text and the fault that is named. Where a text breaks several rules, the first in the order of the rules is.
The script ends with 1 on any mismatch.
"""

import os
import sys
import tempfile

from support.program import built, check, run, told


def table(head, settings, changes):
    """A table of a text: settings by key, of which changes replace some, add some, and take out those that are None."""
    kept = {key: value for key, value in {**settings, **changes}.items() if value is not None}
    return "\n".join([head] + [f"{key} = {value}" for key, value in kept.items()]) + "\n"


def hart(**changes):
    return table("[machine]", {"kind": '"rv32i"', "image": '"i"', "ram": 4096, "quantum": 100, "units": 1000}, changes)


def script(**changes):
    return table("[machine]", {"kind": '"script"', "script": '"s"', "ram": 4096, "quantum": 100, "units": 1000}, changes)


def port(device, base=0x10000000, number=0, **changes):
    settings = {"kind": f'"{device}"', "base": base, "size": 4096, "line": None if device == "null" else number}
    return table("[[port]]", {**settings, "disk": '"d"' if device == "disk" else None}, changes)


TEXTS = [
    ("[machine", "Text"),
    ("a = 1\na = 2\n", "Text"),
    (b"\xff", "Text"),
]

TOP_LEVEL = [
    ("later = 1\nextra = 1\n", "Unknown top extra"),
    ("port = 1\n", "Missing top machine"),
    ("machine = 1\nport = 1\n", "Kind top machine"),
    ("port = 1\n" + hart(kind="1"), "Kind top port"),
    ("port = [1]\n" + hart(), "Kind top port"),
    ("port = [{}, 1]\n" + hart(), "Kind top port"),
]

MACHINE = [
    (hart(later=1, extra=1, kind="1"), "Unknown machine extra"),
    (hart(script='"s"'), "Unknown machine script"),
    (script(posted=1), "Unknown machine posted"),
    (hart(kind=None, script='"s"'), "Missing machine kind"),
    (hart(kind="1"), "Kind machine kind"),
    (hart(kind='"arm"', image=None), "Word machine kind"),
    (hart(image=None, ram=None), "Missing machine image"),
    (hart(image="1"), "Kind machine image"),
    (script(image="1", script=None), "Kind machine image"),
    (script(script=None, ram=None), "Missing machine script"),
    (script(script="[]"), "Kind machine script"),
    (hart(ram=None, quantum=None), "Missing machine ram"),
    (hart(ram='"4096"'), "Kind machine ram"),
    (hart(ram=0, quantum=0), "Range machine ram 0"),
    (hart(ram=-4096), "Range machine ram -4096"),
    (hart(ram=4097), "Range machine ram 4097"),
    (hart(ram=67112960), "Range machine ram 67112960"),
    (hart(quantum=None, units=None), "Missing machine quantum"),
    (hart(quantum="1.0"), "Kind machine quantum"),
    (hart(quantum=0, units=-1), "Range machine quantum 0"),
    (hart(quantum=1000000001), "Range machine quantum 1000000001"),
    (hart(units=None), "Missing machine units"),
    (hart(units="true"), "Kind machine units"),
    (hart(units=-1), "Range machine units -1"),
    (hart(units=4294967296), "Range machine units 4294967296"),
    (hart(units=9223372036854775807), "Range machine units 9223372036854775807"),
]

NUMBER_OF_PORTS = [
    (hart(units=-1) + 17 * port("null"), "Range machine units -1"),
    (hart() + 17 * port("fan"), "TooMany 17"),
]

PORTS = [
    (port("timer", later=1, extra=1, base=1), "Unknown 0 extra"),
    (port("timer", 0x10000000) + port("timer", 1, later=1), "Unknown 1 later"),
    (port("timer", kind='"null"'), "Unknown 0 line"),
    (port("timer", input='"u"'), "Unknown 0 input"),
    (port("disk", gap=1), "Unknown 0 gap"),
    (port("uart", disk='"d"'), "Unknown 0 disk"),
    (port("dma", bad="[]"), "Unknown 0 bad"),
    (port("null", result='"r"'), "Unknown 0 result"),
    (port("fan", gap=1), "Unknown 0 gap"),
    (port("timer", kind=None, base=None), "Missing 0 kind"),
    (port("timer", kind="0"), "Kind 0 kind"),
    (port("fan", base=None), "Word 0 kind"),
    (port("timer", base=None, size=None), "Missing 0 base"),
    (port("timer", base='"0"'), "Kind 0 base"),
    (port("timer", base=0, size=0), "Range 0 base 0"),
    (port("timer", base=5000), "Range 0 base 5000"),
    (port("timer", base=4294967296), "Range 0 base 4294967296"),
    (port("timer", size=None, line=None), "Missing 0 size"),
    (port("timer", size="[]"), "Kind 0 size"),
    (port("timer", size=0), "Range 0 size 0"),
    (port("timer", size=4095, line=32), "Range 0 size 4095"),
    (port("timer", size=1052672), "Range 0 size 1052672"),
    (port("timer", line=None, stores="0"), "Missing 0 line"),
    (port("timer", line='"0"'), "Kind 0 line"),
    (port("timer", line=32, stores='"no"'), "Range 0 line 32"),
    (port("timer", line=-1), "Range 0 line -1"),
    (port("timer", stores="0", lines="0"), "Kind 0 stores"),
    (port("timer", stores='"Posted"', lines="0"), "Word 0 stores"),
    (port("timer", lines="0", caps="0"), "Kind 0 lines"),
    (port("timer", lines='""'), "Word 0 lines"),
    (port("timer", caps="1", socket="1"), "Kind 0 caps"),
    (port("timer", caps='[1, "2"]'), "Kind 0 caps"),
    (port("timer", caps="[0]"), "Range 0 caps 0"),
    (port("timer", caps="[1, 2, 3, 4]"), "Range 0 caps 4"),
    (port("timer", caps="[1, 1]"), "Range 0 caps 1"),
    (port("timer", caps="[3, 2, 4]"), "Range 0 caps 2"),
    (port("uart", socket="1", input="1"), "Kind 0 socket"),
    (port("uart", input="1", gap=0), "Kind 0 input"),
    (port("uart", gap='"1"', relay="1"), "Kind 0 gap"),
    (port("uart", gap=0), "Range 0 gap 0"),
    (port("uart", gap=1000001), "Range 0 gap 1000001"),
    (port("disk", relay="1", disk=None), "Kind 0 relay"),
    (port("disk", disk=None, bad="0"), "Missing 0 disk"),
    (port("disk", disk="1"), "Kind 0 disk"),
    (port("disk", bad="0", result="0"), "Kind 0 bad"),
    (port("disk", bad="[true]"), "Kind 0 bad"),
    (port("disk", bad="[0, 32768]"), "Range 0 bad 32768"),
    (port("disk", bad="[5, 5]"), "Range 0 bad 5"),
    (port("disk", bad="[5, -1]"), "Range 0 bad -1"),
    (port("disk", result="0"), "Kind 0 result"),
]

SEVERAL_PORTS = [
    (port("timer", 0x80000000) + port("timer", 0x10000000, size=1), "Range 1 size 1"),
    (port("timer", 0x7ffff000, size=8192) + port("timer", 0x80000000), "Overlap 0 2"),
    (port("timer", 0x10000000) + port("timer", 0x100000), "Overlap 1 3"),
    (port("timer", 0x10000000, size=8192) + port("timer", 0x10001000), "Overlap 2 3"),
    (port("timer", 0xfffff000, size=8192) + port("timer", 0xfffff000), "Overlap 2 2"),
    (port("timer", 0x10000000) + port("dma", 0x10000000, caps="[]"), "Overlap 2 3"),
    (port("timer", 0x10000000, 1) + port("null", 0x10001000) + port("dma", 0x10002000, 1, caps="[]"), "LineTwice 0 2"),
    (port("timer", 0x10000000, 1) + port("timer", 0x10001000, 2) + port("timer", 0x10002000, 2) + port("timer", 0x10003000, 1), "LineTwice 0 3"),
    (port("timer", caps="[]") + port("dma", 0x10001000, 1, caps="[2, 3]"), "Needs 1 1"),
    (port("dma", 0x10000000, 1, caps="[1, 3]") + port("dma", 0x10001000, 2, caps="[]"), "Needs 0 2"),
]

# Texts that break no rule, at both ends of each limit: the run goes on to the first file, which isn't there.
KEPT = [
    hart(ram=67108864, quantum=1000000000, units=4294967295),
    script(quantum=1, units=0, image='"i"'),
    hart() + port("null", 4096) + port("timer", 4294963200, 31) + port("timer", 0x200000, 0, size=1048576),
    hart() + port("uart", stores='"posted"', lines='"posted"', caps="[]", gap=1000000, relay='"r"', socket='"s"'),
    hart() + port("disk", bad="[0, 32767]", result='"r"', stores='"answered"', lines='"answered"') + port("dma", 0x10001000, 1, caps="[1, 2]"),
    hart() + "".join(port("null", 0x10000000 + 4096 * number) for number in range(16)),
]


def try_text(folder, text, status, error):
    with open(os.path.join(folder, "c"), "wb") as file:
        file.write(text if isinstance(text, bytes) else text.encode())
    ended = run(["direct", "c"], folder)
    check(repr(text), "the end", (ended.returncode, ended.stdout, ended.stderr.decode()), (status, b"", error))


built()
rows = TEXTS + TOP_LEVEL + MACHINE + NUMBER_OF_PORTS + [(hart() + text, fault) for text, fault in PORTS + SEVERAL_PORTS]
with tempfile.TemporaryDirectory() as folder:
    for text, fault in rows:
        try_text(folder, text, 2, f"cosim: config: {fault}\n")
    for text in KEPT:
        try_text(folder, text, 5, "cosim: outside: files 1\n")
sys.exit(told("configurations"))
