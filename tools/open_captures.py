#!/usr/bin/env python3
"""Captures examples by the built program, and opens the captures by the tools of others: tshark and text2pcap.

    tools/open_captures.py [PROGRAM] [--script FILE ..]

Each script is played by `capture`. tshark may find no packet malformed and nothing to remark, has to find the checksum
of each LSP correct, and as many packets of each kind as `list` tells. A file that text2pcap makes of the same frames is
listed as they are. Where tshark isn't there (Debian: apt-get install tshark), it says so and tries nothing. The exit
status is 1 where something was wrong.
"""
import argparse
import collections
import os
import shutil
import subprocess
import sys
import tempfile

import failing

EXAMPLES = os.path.join(failing.HERE, "..", "examples")
# the examples whose customers' frames have a type that no analyser opens, or that have no such frames
SCRIPTS = ("frames-on-the-wire", "lost-hellos", "quiet-drill", "link-failure-drill", "restart-drill")
# the number of a PDU's type, which stands in five bits (ISO/IEC 10589, 9.5 to 9.13)
PDUS = {17: "hello", 18: "LSP", 24: "CSNP", 26: "PSNP"}
FIELDS = ("frame.number", "frame.len", "isis.type", "isis.lsp.checksum.status", "ieee8021ah.isid", "_ws.malformed",
          "_ws.expert.message")
# what tshark says of a checksum that is right
GOOD = "1"


def called(words, data=None):
    """The output of a command, which has to end well."""
    run = subprocess.run(words, input=data, stdout=subprocess.PIPE, stderr=subprocess.PIPE, timeout=failing.LONGEST)
    if run.returncode != 0:
        raise RuntimeError(f"{os.path.basename(words[0])} ends with {run.returncode}: {run.stderr.decode()[:300]}")
    return run.stdout


def kind_of(frame):
    """What a frame is by its bytes: one of IS-IS, or of the backbone."""
    if frame[12:14] == b"\x88\xa8":
        return "backbone"
    return PDUS.get(frame[21] & 31, "other") if frame[14:17] == b"\xfe\xfe\x03" else "other"


def listed(program, capture):
    """The seconds and the frame of each packet, as the program lists them."""
    for line in called([program, "list"], capture).decode().splitlines():
        mark, seconds, length, digits = line.split(" ")
        frame = b"" if digits == "-" else bytes.fromhex(digits)
        if mark != "f" or len(frame) != int(length):
            raise RuntimeError(f"list writes the line {line[:80]}")
        yield int(seconds), frame


def opened(path):
    """What tshark finds in each packet, field by field."""
    words = ["tshark", "-r", path, "-T", "fields", "-E", "separator=/t"]
    for field in FIELDS:
        words += ["-e", field]
    for line in called(words).decode().splitlines():
        yield dict(zip(FIELDS, line.split("\t")))


def kind_found(row):
    """The kind of packet that tshark finds."""
    if row["ieee8021ah.isid"]:
        return "backbone"
    return PDUS.get(int(row["isis.type"], 0), "other") if row["isis.type"] else "other"


def wrong_rows(rows, frames):
    """What is wrong with what tshark finds."""
    for row, (_, frame) in zip(rows, frames):
        where = f"packet {row['frame.number']}"
        if row["_ws.malformed"] or row["_ws.expert.message"]:
            yield f"{where} is remarked: {row['_ws.malformed']} {row['_ws.expert.message']}"
        if int(row["frame.len"]) != len(frame):
            yield f"{where} has {row['frame.len']} bytes, and not {len(frame)}"
        if kind_found(row) != kind_of(frame):
            yield f"{where} is a {kind_found(row)}, and not a {kind_of(frame)}"
        if kind_of(frame) == "LSP" and row["isis.lsp.checksum.status"] != GOOD:
            yield f"{where} has another checksum"
    if len(rows) != len(frames):
        yield f"tshark finds {len(rows)} packets, and list {len(frames)}"


def hex_dump(frames):
    """Frames as text2pcap reads them."""
    return "".join("0000 " + " ".join(f"{byte:02x}" for byte in frame) + "\n\n" for _, frame in frames).encode()


def wrong_of_text2pcap(program, frames, folder):
    """What is wrong with the list of a file that text2pcap makes of some frames."""
    text, path = os.path.join(folder, "frames.txt"), os.path.join(folder, "made.pcap")
    with open(text, "wb") as file:
        file.write(hex_dump(frames))
    called(["text2pcap", "-q", "-F", "pcap", text, path])
    with open(path, "rb") as file:
        made = [frame for _, frame in listed(program, file.read())]
    if made != [frame for _, frame in frames]:
        yield "the frames of a file of text2pcap are listed as others"


def wrong(program, script, folder):
    """What is wrong with the capture of a script, and how many packets of each kind it has."""
    path = os.path.join(folder, "captured.pcap")
    with open(script, "rb") as file:
        capture = called([program, "capture"], file.read())
    with open(path, "wb") as file:
        file.write(capture)
    frames, rows = list(listed(program, capture)), list(opened(path))
    faults = list(wrong_rows(rows, frames))
    if shutil.which("text2pcap"):
        faults += wrong_of_text2pcap(program, frames, folder)
    return faults, collections.Counter(kind_of(frame) for _, frame in frames)


def main():
    parser = argparse.ArgumentParser(description=__doc__.split("\n\n")[0])
    parser.add_argument("program", nargs="?", default=failing.BUILT, help="the built program (default: this one's)")
    parser.add_argument("--script", nargs="+", help="the scripts (default: examples without frames that are opened)")
    told = parser.parse_args()
    if not shutil.which("tshark"):
        print("open_captures.py: tshark isn't there, so nothing is tried")
        return 0
    program = failing.needed(told.program)
    scripts = told.script or [os.path.join(EXAMPLES, f"{name}.spb") for name in SCRIPTS]
    is_wrong = False
    with tempfile.TemporaryDirectory() as folder:
        for script in scripts:
            faults, kinds = wrong(program, script, folder)
            counts = ", ".join(f"{count} {kind}" for kind, count in sorted(kinds.items()))
            print(f"{os.path.basename(script)}: {counts or 'no packets'}")
            for fault in faults:
                print(f"    {fault}")
            is_wrong = is_wrong or bool(faults)
    return 1 if is_wrong else 0


if __name__ == "__main__":
    sys.exit(main())
