#!/usr/bin/env python3
"""Writes the binary samples of the gallery: made here, of no real person or machine.

    examples/samples.py            writes them again
    examples/samples.py --check    tells whether they are what it would write
"""
import struct
import sys
import zlib
from pathlib import Path

HERE = Path(__file__).resolve().parent


def login(kind, process, line, name, user, host, seconds, microseconds=0, address=b""):
    return struct.pack("<hhi32s4s32s256shhiii16s20s", kind, 0, process, line, name, user, host, 0, 0, 0, seconds, microseconds, address, b"")


def wtmp():
    """A start, two logins and a logout; a type that there isn't, no time, and a last record that is cut short."""
    made = login(2, 0, b"~", b"~~", b"reboot", b"6.1.0-example", 1760104000, 250)
    made += login(7, 812, b"tty1", b"tty1", b"mary", b"", 1760104536, 17)
    made += login(7, 913, b"pts/0", b"ts/0", b"paul", b"host.example.org", 1760104601, 99, bytes([203, 0, 113, 7]))
    made += login(8, 913, b"pts/0", b"", b"", b"", 1760104999)
    made += login(77, 914, b"pts/1", b"ts/1", b"anna", b"", 1760105000)
    made += login(7, 915, b"pts/2", b"ts/2", b"anna", b"", 0, 1000000)
    return made + login(7, 916, b"pts/3", b"ts/3", b"anna", b"", 1760105001)[:100]


def chunk(kind, data, checksum=None):
    return struct.pack(">I", len(data)) + kind + data + struct.pack(">I", zlib.crc32(kind + data) if checksum is None else checksum)


def png(depth=8, month=10):
    """One red pixel, with a text and a time."""
    made = b"\x89PNG\r\n\x1a\n" + chunk(b"IHDR", struct.pack(">IIBBBBB", 1, 1, depth, 2, 0, 0, 0))
    made += chunk(b"tEXt", b"Title\0One red pixel") + chunk(b"tIME", struct.pack(">HBBBBB", 2025, month, 10, 13, 55, 36))
    # Deflated as it is, so that no version of a library can change it: one stored block.
    pixel = b"\0\xff\0\0"
    stored = b"\x78\x01\x01" + struct.pack("<HH", len(pixel), 0xffff - len(pixel)) + pixel + struct.pack(">I", zlib.adler32(pixel))
    return made + chunk(b"IDAT", stored) + chunk(b"IEND", b"")


def png_broken():
    """A depth and a month that there aren't, and the last checksum cut off."""
    return png(3, 13)[:-4]


def frame(seconds, microseconds, data, length=None, kept=None):
    return struct.pack("<IIII", seconds, microseconds, len(data) if kept is None else kept, length or len(data)) + data


def pcap():
    """An ARP question, a datagram; a length below what is kept with a time out of range; a packet that is cut off."""
    ends = bytes.fromhex("ffffffffffff 020000000001".replace(" ", ""))
    arp = ends + bytes.fromhex("0806 0001080006040001 020000000001 c0000201 000000000000 c0000202".replace(" ", ""))
    header = struct.pack(">BBHHHBBHII", 0x45, 0, 33, 7, 0, 64, 17, 0, 0xc0000201, 0xc0000202)
    datagram = ends + b"\x08\x00" + header + struct.pack(">HHHH", 5000, 53, 13, 0) + b"hello"
    old = ends + b"\x08\x00" + b"\x65" + header[1:]
    made = struct.pack("<IHHiIII", 0xa1b2c3d4, 2, 4, 0, 0, 65535, 1)
    made += frame(1760104536, 100, arp) + frame(1760104536, 250, datagram) + frame(1760104537, 1000000, old, 40)
    return made + frame(1760104538, 5, ends + b"\x08", 60, 60)


def zone_block(size, changes, kinds, types, names):
    number = {4: "i", 8: "q"}[size]
    return struct.pack(f">{len(changes)}{number}", *changes) + bytes(kinds) + b"".join(struct.pack(">iBB", *t) for t in types) + names


def tzif(last=25200):
    """A zone that isn't there: UTC+1, and UTC+2 in summer; its changes of 32 bits are in order, the last of 64 bits isn't."""
    types, names, changes = [(3600, 0, 0), (7200, 1, 4)], b"EXT\0EXST\0", [1743296400, 1761440400, 1774746000]
    counts = struct.pack(">6I", 0, 0, 0, 3, 2, len(names))
    head = b"TZif2" + bytes(15) + counts
    made = head + zone_block(4, changes, [1, 0, 1], types, names)
    return made + head + zone_block(8, [*changes[:2], last], [1, 0, 2], types, names) + b"\nEXT-1EXST,M3.5.0,M10.5.0/3\n"


def packed(number, sign, size=3):
    return bytes.fromhex(f"{number:0{2 * size - 1}d}{sign}")


def payroll():
    """Six blocks of 21 bytes: two with faults in packed and zoned numbers, and a sign that is none."""
    def person(number, name, pay, hours):
        return f"{number:>6}{name:<8}".encode("cp037") + pay + hours
    digits = lambda text, last: text.encode("cp037") + bytes([last])
    return b"".join([
        person("000101", "LEE", packed(12345, "C"), digits("017", 0xF5)),
        person("000102", "O'HARA", packed(250, "D"), digits("000", 0xD8)),
        person("   103", "NG", packed(99999, "F"), digits("016", 0xC0)),
        person("000104", "MEYER", bytes.fromhex("1A345C"), digits("016", 0xF0)),
        person("000105", "SILVA", packed(12345, "C"), digits("O16", 0xF0)),
        person("000106", "ROSSI", packed(12345, "7"), digits("016", 0x50)),
    ])


def ledger():
    """Seven blocks of 35 bytes of ledger.csv, as ledger.cob writes them with the texts in EBCDIC: two with blanks in place of
    a packed and of a zoned number, and a rate of 0."""
    def cents(text, places):
        return round(float(text) * 10 ** places)
    def zoned(number, digits):
        text = f"{abs(number):0{digits}d}".encode("cp037")
        return text[:-1] + bytes([text[-1] - (0x20 if number < 0 else 0x30)])
    def block(line):
        account, holder, balance, change, rate, branch = line.split(";")
        amount = cents(balance or "0", 2)
        return b"".join([
            f"{account:>06}{holder:<12}".encode("cp037"),
            packed(abs(amount), "D" if amount < 0 else "C", 5) if balance else b"\x40" * 5,
            zoned(cents(change, 2), 7) if change else b"\x40" * 7,
            packed(cents(rate, 3), "F"),
            int(branch).to_bytes(2, "big"),
        ])
    return b"".join(map(block, (HERE / "ledger.csv").read_text().splitlines()))


SAMPLES = {"wtmp.bin": wtmp, "png.bin": png, "png-broken.bin": png_broken, "pcap.bin": pcap, "tzif.bin": tzif, "payroll.bin": payroll,
           "ledger.bin": ledger}


def main():
    wrong = []
    for name, make in SAMPLES.items():
        path = HERE / name
        if "--check" not in sys.argv:
            path.write_bytes(make())
        elif not path.exists() or path.read_bytes() != make():
            wrong.append(name)
    if wrong:
        sys.exit("not as made: " + ", ".join(wrong))


if __name__ == "__main__":
    main()
