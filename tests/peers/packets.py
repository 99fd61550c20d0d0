"""Packets of another program for the lookup: tools/peers runs this, and tests/peers/lookups.c asks the layer about what it writes.

`packets.py FILE` has scapy build Ethernet frames with IPv4 and other payloads. It writes a line to FILE for each case: a name; the handle
that the lookup has to give, or `-` for no stream; how many octets of the frame are lent, fewer than all where it is cut; the table and the
whole frame in hex. What has to match is said by what scapy reads of the octets that it built, and by the papers' sentences over that. The
seed is fixed, so every run writes the same. It prints what it built.

It fails where the cases do not tell enough: where some field of an entry is never the only one that differs, for each protocol, or where
one of the wrong readings below would change no answer."""

import logging
import random
import struct
import sys
from collections import Counter, namedtuple
from socket import inet_aton, inet_ntoa

logging.getLogger("scapy").setLevel(logging.CRITICAL)  # it warns where there is no network, and none is used

import scapy
from scapy.layers.inet import ICMP, IP, TCP, UDP, IPOption_RR, IPOption_Stream_Id, fragment
from scapy.layers.inet6 import IPv6
from scapy.layers.l2 import ARP, LLC, Dot1AD, Dot1Q, Dot3, Ether
from scapy.layers.ppp import PPP, PPPoE
from scapy.layers.sctp import SCTP, SCTPChunkData
from scapy.packet import Padding, Raw
from scapy.utils import mac2str, str2mac

chance = random.Random(1)

# ---- What scapy reads of a frame ----

HEADER = "version words tos dscp total flags offset protocol source_ip destination_ip ports".split()
Seen = namedtuple("Seen", ["destination", "source", "vlan", "type", *HEADER, "payload"])


def look(frame):
    """The VLAN is None without a C-TAG, and what stands in an IPv4 header without one. The payload is what follows the last type."""
    packet = Ether(frame)
    tagged = type(packet.payload) is Dot1Q
    last = packet.payload if tagged else packet
    header = [None] * len(HEADER)
    if type(last.payload) is IP:
        ip, inner = last.payload, last.payload.payload
        ports = (inner.sport, inner.dport) if isinstance(inner, (UDP, TCP, SCTP)) else None
        header = [ip.version, ip.ihl, ip.tos, ip.tos >> 2, ip.len, int(ip.flags), ip.frag, ip.proto]
        header += [inet_aton(ip.src), inet_aton(ip.dst), ports]
    return Seen(
        mac2str(packet.dst),
        mac2str(packet.src),
        last.vlan if tagged else None,
        getattr(last, "type", None),  # there may be a length in its place
        *header,
        frame[18 if tagged else 14 :],
    )


# ---- Entries, and what they match ----

BY_DESTINATION, BY_SOURCE, BY_IP = 1, 2, 4
TAGGED, PRIORITY, ALL = 1, 2, 3
ANY_DSCP, NO_NEXT, ANY_IP = 255, 1, bytes(4)
NEXT = {17: 2, 6: 3, 132: 4}

Entry = namedtuple("Entry", "kind address choice vlan source_ip destination_ip dscp next source_port destination_port handle")
FIELDS = Entry._fields[1:-1]
IGNORED = dict(choice=ALL, vlan=0, source_ip=ANY_IP, destination_ip=ANY_IP, dscp=ANY_DSCP, next=NO_NEXT, source_port=0, destination_port=0)


def octets(entry):
    if entry.kind == BY_IP:
        return struct.pack(">B6sBH4s4sBBHHH", *entry)
    return struct.pack(">B6sBHH", *entry[:4], entry.handle)


def matches(entry, seen):
    if entry.address != (seen.source if entry.kind == BY_SOURCE else seen.destination):
        return False
    if (entry.choice == TAGGED and seen.vlan is None) or (entry.choice == PRIORITY and seen.vlan not in (None, 0)):
        return False
    if entry.vlan not in (0, seen.vlan or 0):
        return False
    if entry.kind != BY_IP:
        return True
    # "A type other than 0800, a bad or cut header .. is no match"
    if seen.type != 0x0800 or seen.version != 4 or seen.words < 5 or len(seen.payload) < 4 * seen.words:
        return False
    # "IP address or port zero ignores that field", and DSCP 255 "ignores"
    if entry.source_ip not in (ANY_IP, seen.source_ip) or entry.destination_ip not in (ANY_IP, seen.destination_ip):
        return False
    if entry.dscp not in (ANY_DSCP, seen.dscp):
        return False
    # "With none, protocol and ports aren't compared"
    if entry.next == NO_NEXT:
        return True
    if entry.next != NEXT.get(seen.protocol):
        return False
    asked = (entry.source_port, entry.destination_port)
    if asked == (0, 0):
        return True
    # cut is also "that plus four octets where a port is asked", and "a later fragment where a port is asked is no match"
    if seen.offset != 0 or len(seen.payload) < 4 * seen.words + 4:
        return False
    return all(port in (0, there) for port, there in zip(asked, seen.ports))


def answer(entries, seen):
    """The first match's handle, or None."""
    return next((entry.handle for entry in entries if matches(entry, seen)), None)


def some_handle():
    return chance.randrange(65536)


def own(seen, kind=BY_IP):
    """An entry that asks for all that scapy reads of that packet."""
    return Entry(
        kind,
        seen.source if kind == BY_SOURCE else seen.destination,
        PRIORITY if seen.vlan is None else TAGGED,
        seen.vlan or 0,
        seen.source_ip or ANY_IP,
        seen.destination_ip or ANY_IP,
        ANY_DSCP if seen.dscp is None else seen.dscp,
        NEXT.get(seen.protocol, NO_NEXT),
        *(seen.ports or (0, 0)),
        some_handle(),
    )


def other(value, bits):
    """That number with another bit, and not 0, which would ask for nothing."""
    changed = 0
    while changed == 0:
        changed = value ^ 1 << chance.randrange(bits)
    return changed


def with_other(entry, field):
    """That entry with another value in one field, one that asks for something."""
    value = getattr(entry, field)
    if field == "choice":
        changed = TAGGED if value == PRIORITY else PRIORITY
    elif field == "vlan":
        changed = chance.choice([vlan for vlan in (1, 5, 2047, 4094, other(value, 12)) if vlan not in (value, 4095)])
    elif field == "dscp":
        changed = value ^ 1 << chance.randrange(6)
    elif field == "next":
        changed = chance.choice([number for number in NEXT.values() if number != value])
    elif isinstance(value, bytes):
        changed = other(int.from_bytes(value, "big"), 8 * len(value)).to_bytes(len(value), "big")
    else:
        changed = other(value, 16)
    return entry._replace(**{field: changed})


def ignoring(entry, *fields):
    return entry._replace(**{field: IGNORED[field] for field in fields if field in IGNORED})


def only(entry, field):
    """That entry with one field asked for, beside the address, which always is; a port is not without its protocol."""
    kept = (field, "next") if field.endswith("port") else (field,)
    return ignoring(entry, *(name for name in FIELDS if name not in kept))


# ---- The cases ----


def ports_at(seen, place):
    return struct.unpack(">HH", seen.payload[place : place + 4].ljust(4, b"\0"))


# What scapy reads, with one thing read wrongly: each of these has to change some case's answer.
WRONG_READINGS = {
    "the source address as the destination": lambda seen: seen._replace(destination=seen.source),
    "a C-TAG overlooked": lambda seen: seen._replace(vlan=None),
    "a C-TAG with VLAN id 0 taken for none": lambda seen: seen._replace(vlan=seen.vlan or None),
    "every type taken for 0800": lambda seen: seen._replace(type=0x0800),
    "any version taken": lambda seen: seen._replace(version=4),
    "any header length taken": lambda seen: seen._replace(words=max(seen.words, 5)),
    "cut off octets taken as there": lambda seen: seen._replace(payload=seen.payload + bytes(64)),
    "the total length read": lambda seen: seen._replace(payload=seen.payload[: seen.total]),
    "the IP addresses swapped": lambda seen: seen._replace(source_ip=seen.destination_ip, destination_ip=seen.source_ip),
    "the whole octet as DSCP": lambda seen: seen._replace(dscp=seen.tos),
    "the low six bits as DSCP": lambda seen: seen._replace(dscp=seen.tos & 63),
    "SCTP taken for TCP": lambda seen: seen._replace(protocol=6 if seen.protocol == 132 else seen.protocol),
    "options not skipped": lambda seen: seen._replace(ports=ports_at(seen, 20)),
    "the ports swapped": lambda seen: seen._replace(ports=seen.ports and seen.ports[::-1]),
    "a later fragment taken for a first": lambda seen: seen._replace(offset=0, ports=ports_at(seen, 4 * seen.words)),
    "a first fragment taken for a later": lambda seen: seen._replace(offset=seen.offset | seen.flags & 1),
    "all flags taken for the offset": lambda seen: seen._replace(offset=seen.offset | seen.flags),
}

lines = []
frames, cut_frames = {}, set()  # the octets lent, with what scapy reads of them; and those of them that are a part of a frame
decided, shown = Counter(), Counter()  # how often a field alone was the reason for no stream; how many answers a wrong reading changes


def case(name, entries, frame, seen, lent=None):
    """Writes a case down and answers the handle expected. The whole frame is lent, or so many octets of it."""
    expected = answer(entries, seen)
    lent = len(frame) if lent is None else lent
    frames[frame[:lent]] = seen
    if lent < len(frame):
        cut_frames.add(frame[:lent])
    if seen.words is not None:
        for reading, wrong in WRONG_READINGS.items():
            shown[reading] += answer(entries, wrong(seen)) != expected
    table = b"".join(map(octets, entries)).hex()
    lines.append(f"{name} {'-' if expected is None else expected} {lent} {table} {frame.hex()}\n")
    return expected


def should(holds, name):
    if not holds:
        sys.exit(f"tests/peers/packets.py: {name} is not what it was made for")


# ---- What scapy is asked to build ----

PROTOCOLS = ("UDP", "TCP", "SCTP", "ICMP")


def some_octets(least, most):
    return chance.randbytes(chance.randint(least, most))


def some_port():
    return chance.randrange(1, 65536)


def some_ip():
    return inet_ntoa(bytes([chance.randrange(1, 224)]) + chance.randbytes(3))


def some_head(vlan=None):
    """Addresses, and a C-TAG of any priority where a VLAN is given."""
    addresses = Ether(dst=str2mac(b"\x02" + chance.randbytes(5)), src=str2mac(b"\x06" + chance.randbytes(5)))
    return addresses if vlan is None else addresses / Dot1Q(vlan=vlan, prio=chance.randrange(8), id=chance.randrange(2))


def ethernet(payload, vlan=None):
    return bytes(some_head(vlan) / payload)


def ip(**given):
    fields = dict(src=some_ip(), dst=some_ip(), tos=chance.randrange(256), id=chance.randrange(65536), ttl=chance.randrange(1, 256))
    return IP(**{**fields, **given})


def carried(protocol, data=None, **ports):
    data = some_octets(0, 60) if data is None else data
    ports = ports or dict(sport=some_port(), dport=some_port())
    if protocol == "UDP":
        return UDP(**ports) / Raw(data)
    if protocol == "TCP":
        return TCP(seq=chance.getrandbits(32), ack=chance.getrandbits(32), flags="PA", **ports) / Raw(data)
    if protocol == "SCTP":
        return SCTP(tag=chance.getrandbits(32), **ports) / SCTPChunkData(tsn=1, stream_id=2, stream_seq=3, proto_id=4, data=data)
    return ICMP(type=8, id=chance.randrange(65536), seq=chance.randrange(65536)) / Raw(data)


def options(words):
    """Options that fill so many words: a route with an octet of padding behind it, or stream ids."""
    if words % 2 == 1:
        return [IPOption_RR(routers=[some_ip() for _ in range(words - 1)])]
    return [IPOption_Stream_Id(security=chance.randrange(65536)) for _ in range(words)]


# ---- One group of cases after the other ----


def every_field(name, protocol, frame, seen):
    """The packet's own entry, and in its turn each field another, ignored, and asked for alone."""
    entry = own(seen)
    should(case(f"{name}-own", [entry], frame, seen) == entry.handle, name)
    another = entry._replace(handle=other(entry.handle, 16))
    should(case(f"{name}-handle", [another], frame, seen) == another.handle, name)
    for field in FIELDS:
        wrong = with_other(entry, field)
        for what, asked in ("another", wrong), ("only-another", only(wrong, field)):
            decided[protocol, field] += case(f"{name}-{field}-{what}", [asked], frame, seen) is None
        if field in IGNORED:
            should(case(f"{name}-{field}-ignored", [ignoring(wrong, field)], frame, seen) == entry.handle, name)
        should(case(f"{name}-{field}-only", [only(entry, field)], frame, seen) == entry.handle, name)
    for field in "source_port", "destination_port":
        none = ignoring(with_other(entry, field), "next")
        should(case(f"{name}-{field}-another-no-protocol", [none], frame, seen) == entry.handle, name)
    swapped = entry._replace(source_ip=entry.destination_ip, destination_ip=entry.source_ip)
    case(f"{name}-swapped-addresses", [swapped], frame, seen)
    swapped = entry._replace(source_port=entry.destination_port, destination_port=entry.source_port)
    case(f"{name}-swapped-ports", [swapped], frame, seen)
    for kind in BY_DESTINATION, BY_SOURCE:
        entry = own(seen, kind)
        should(case(f"{name}-kind-{kind}", [entry], frame, seen) == entry.handle, name)
        for field in "address", "choice", "vlan":
            case(f"{name}-kind-{kind}-{field}-another", [with_other(entry, field)], frame, seen)


def whole_packets():
    """Every protocol with every length of options, without a C-TAG and with one, padded in its turn."""
    turn = 0
    for protocol in PROTOCOLS:
        for vlan in (None, 0, 1, 5, 2048, 4094):
            for words in range(0, 11, 1 if vlan in (None, 5) else 5):
                packet = ip(options=options(words)) / carried(protocol)
                turn += 1
                if turn % 3 == 0:
                    packet /= Padding(some_octets(1, 46))
                frame = ethernet(packet, vlan)
                seen = look(frame)
                should(seen.words == 5 + words and (seen.ports is not None) == (protocol != "ICMP"), f"{protocol}-{words}")
                every_field(f"{protocol}-options-{words}-vlan-{vlan}", protocol, frame, seen)
        for length in 1516, 1517, 1522:  # the longest frames with room for six octets and without
            packet = ip() / carried(protocol, bytes(1400))
            frame = ethernet(packet / Padding(bytes(length - 18 - len(packet))), 7)
            every_field(f"{protocol}-octets-{len(frame)}", protocol, frame, look(frame))


def every_tos():
    for tos in range(256):
        protocol = PROTOCOLS[(tos + tos // 4) % 4]
        frame = ethernet(ip(tos=tos) / carried(protocol), chance.choice([None, 9]))
        seen = look(frame)
        for what, entry in ("own", own(seen)), ("another", with_other(own(seen), "dscp")), ("ignored", ignoring(own(seen), "dscp")):
            should((case(f"{protocol}-tos-{tos}-{what}", [entry], frame, seen) is None) == (what == "another"), f"tos-{tos}")


def every_protocol():
    """Ports stand where they do in UDP, and each number is held against the entries of all three and against none."""
    for protocol in range(256):
        frame = ethernet(ip(proto=protocol) / Raw(struct.pack(">HH", 4660, 22136) + bytes(28)))
        seen = look(frame)
        entry = own(seen)._replace(source_port=4660, destination_port=22136)
        entries = [entry._replace(next=number, handle=some_handle()) for number in NEXT.values()]
        should((case(f"protocol-{protocol}", entries, frame, seen) is not None) == (protocol in NEXT), f"protocol-{protocol}")
        entries = [ignoring(asked, "source_port", "destination_port") for asked in entries]
        case(f"protocol-{protocol}-no-ports", entries + [entry._replace(next=NO_NEXT)], frame, seen)


def fragment_cases(name, entry, frame, seen):
    """By both ports, by one, by the protocol alone, and with no protocol asked for."""
    for ignored in (), ("destination_port",), ("source_port",), ("source_port", "destination_port"):
        found = case(f"{name}-ports-{2 - len(ignored)}", [ignoring(entry, *ignored)], frame, seen)
        should((found is None) == (len(ignored) < 2 and seen.offset != 0), name)
    should(case(f"{name}-none", [ignoring(entry, "next")], frame, seen) == entry.handle, name)
    behind = entry._replace(next=NO_NEXT, handle=some_handle())
    case(f"{name}-then-none", [entry, behind], frame, seen)


def fragments():
    """Scapy's own fragments of a datagram that repeats its ports, so that a later one looks as if it began with them."""
    for protocol in PROTOCOLS[:3]:
        for size, words, vlan in (8, 0, None), (24, 0, 5), (24, 3, None), (64, 10, 0), (1200, 0, 4094):
            sport, dport = some_port(), some_port()
            data = struct.pack(">HH", sport, dport) * (size // 2)
            packet = ip(options=options(words)) / carried(protocol, data, sport=sport, dport=dport)
            pieces = fragment(packet, size)
            should(len(pieces) > 2, f"{protocol}-fragments-{size}")
            for number, piece in enumerate(pieces):
                frame = ethernet(piece, vlan)
                seen = look(frame)
                should((seen.offset == 0) == (number == 0), f"{protocol}-fragments-{size}")
                seen = seen._replace(ports=(sport, dport) if number == 0 else None)
                entry = own(seen)._replace(source_port=sport, destination_port=dport)
                fragment_cases(f"{protocol}-fragment-{size}-{number}", entry, frame, seen)
        for offset in [0] + [1 << bit for bit in range(13)] + [8191]:
            for flags in range(8) if offset == 0 else (0, 1, 6):
                frame = ethernet(ip(flags=flags, frag=offset) / carried(protocol, bytes(8), sport=258, dport=772))
                seen = look(frame)
                should((seen.flags, seen.offset) == (flags, offset), f"{protocol}-offset-{offset}")
                entry = own(seen)._replace(source_port=258, destination_port=772)
                fragment_cases(f"{protocol}-flags-{flags}-offset-{offset}", entry, frame, seen)


def cut_packets():
    """Every prefix from the last type on, by ports, by the protocol and by no protocol, in this order."""
    for protocol in PROTOCOLS:
        for words, vlan in (0, None), (1, 5), (10, 0):
            frame = ethernet(ip(options=options(words)) / carried(protocol, bytes(40)), vlan)
            seen = look(frame)
            entry = own(seen)
            entries = [entry, ignoring(entry, "source_port", "destination_port"), ignoring(entry, *FIELDS)]
            entries = [asked._replace(handle=handle) for handle, asked in enumerate(entries, 1)]
            head = len(frame) - len(seen.payload)
            for length in range(4 * seen.words + 9):
                cut = seen._replace(payload=seen.payload[:length])
                found = case(f"{protocol}-options-{words}-cut-{length}", entries, frame, cut, head + length)
                by_ports = 1 if protocol == "ICMP" or length >= 4 * seen.words + 4 else 2
                should(found == (None if length < 4 * seen.words else by_ports), f"{protocol}-cut-{length}")


def not_read():
    """The same packet with another total length or checksum is of the same stream."""
    for protocol in PROTOCOLS:
        for name, fields in ("len", (0, 19, 20, 23, 65535)), ("chksum", (0, 1, 65535)):
            for value in fields:
                head, packet = some_head(), ip() / carried(protocol)
                seen = look(bytes(head / packet))
                setattr(packet, name, value)
                frame = bytes(head / packet)
                should(look(frame).payload != seen.payload, f"{protocol}-{name}-{value}")
                seen = seen._replace(payload=look(frame).payload, total=look(frame).total)
                for what, entry in ("own", own(seen)), ("another", with_other(own(seen), "destination_ip")):
                    should((case(f"{protocol}-{name}-{value}-{what}", [entry], frame, seen) is None) == (what == "another"), name)


def no_match_for_ip(name, frame, seen):
    """No entry of kind 4 matches; one of kind 1 or 2 behind it does."""
    entry = ignoring(own(seen), *FIELDS)
    should(case(f"{name}-ip", [entry], frame, seen) is None, name)
    for kind in BY_DESTINATION, BY_SOURCE:
        behind = own(seen, kind)
        should(case(f"{name}-then-kind-{kind}", [entry, behind], frame, seen) == behind.handle, name)


def bad_headers():
    for vlan in None, 5:
        for version in range(16):
            if version != 4:
                frame = ethernet(ip(version=version) / carried("UDP", bytes(40)), vlan)
                seen = look(frame)
                should(seen.version == version, f"version-{version}")
                no_match_for_ip(f"version-{version}-vlan-{vlan}", frame, seen)
        for words in range(5):
            frame = ethernet(ip(ihl=words) / carried("UDP", bytes(40)), vlan)
            seen = look(frame)
            should(seen.words == words, f"words-{words}")
            no_match_for_ip(f"words-{words}-vlan-{vlan}", frame, seen)


def other_types():
    for vlan in None, 5:
        inner = ip() / carried("UDP")
        others = {
            "ARP": ARP(hwsrc="02:00:00:00:00:01", psrc=some_ip(), hwdst="02:00:00:00:00:02", pdst=some_ip()),
            "IPv6": IPv6(src="fe80::1", dst="fe80::2") / carried("UDP"),
            "IPv4-in-IPv6": IPv6(src="fe80::1", dst="fe80::2") / inner,
            "PPPoE": PPPoE(sessionid=1) / PPP() / inner,
            "S-TAG": Dot1AD(vlan=5) / inner,
        }
        for name, payload in others.items():
            frame = ethernet(payload, vlan)
            seen = look(frame)
            should(seen.type != 0x0800, name)
            no_match_for_ip(f"{name}-vlan-{vlan}", frame, seen)
        for bit in range(16):  # an IPv4 packet under a type that is not its own
            head = some_head(vlan)
            seen = look(bytes(head / inner))
            head.lastlayer().type = 0x0800 ^ 1 << bit
            frame = bytes(head / inner)
            should(look(frame).type != 0x0800 and look(frame).payload == seen.payload, f"type-bit-{bit}")
            no_match_for_ip(f"type-bit-{bit}-vlan-{vlan}", frame, seen._replace(type=look(frame).type))
    frame = bytes(Dot3(dst="02:00:00:00:00:01", src="02:00:00:00:00:02") / LLC() / Raw(bytes(40)))
    no_match_for_ip("length", frame, look(frame))


def zeros():
    """Addresses and ports that are zero in the packet: no entry can ask for them."""
    for protocol in PROTOCOLS:
        frame = ethernet(ip(src="0.0.0.0", dst="0.0.0.0", tos=0) / carried(protocol, sport=0, dport=0))
        seen = look(frame)
        every_field(f"{protocol}-zeros", protocol, frame, seen)


def tables():
    """Tables of entries for one packet, many of them with a field another: the first match decides. And the longest ones."""
    pool = [(frame, seen) for frame, seen in frames.items() if matches(own(seen), seen)]

    def entries_for(seen, count):
        for _ in range(count):
            entry = own(seen, chance.choice([BY_IP, BY_IP, BY_IP, BY_DESTINATION, BY_SOURCE]))
            if chance.randrange(4) > 0:
                entry = with_other(entry, chance.choice(FIELDS[:3] if entry.kind != BY_IP else FIELDS))
            yield ignoring(entry, *chance.sample(FIELDS, chance.randrange(4)))

    for number in range(1000):
        frame, seen = chance.choice(pool)
        case(f"table-{number}", list(entries_for(seen, chance.randint(1, 12))), frame, seen)
    for number in range(8):
        frame, seen = chance.choice(pool)
        entries = [with_other(own(seen), chance.choice(("address", "source_ip", "destination_ip", "dscp"))) for _ in range(256)]
        should(case(f"longest-table-{number}-none", entries, frame, seen) is None, "longest-table")
        entries[255] = own(seen)
        should(case(f"longest-table-{number}-last", entries, frame, seen) == entries[255].handle, "longest-table")


def main(path):
    for group in whole_packets, every_tos, every_protocol, fragments, cut_packets, not_read, bad_headers, other_types, zeros, tables:
        group()
    for protocol in PROTOCOLS:
        for field in FIELDS:
            should(decided[protocol, field] > 0 or (protocol == "ICMP" and field.endswith("port")), f"{protocol}-{field}")
    for reading in WRONG_READINGS:
        if shown[reading] == 0:
            sys.exit(f"tests/peers/packets.py: no case would show this wrong reading: {reading}")
    with open(path, "w", encoding="ascii") as file:
        file.writelines(lines)

    of_ip = [seen for seen in frames.values() if seen.type == 0x0800]
    counts = Counter({17: "UDP", 6: "TCP", 132: "SCTP", 1: "ICMP"}.get(seen.protocol, "of other protocols") for seen in of_ip)
    counts["of other types"] = len(frames) - len(of_ip)
    counts["with options"] = sum(seen.words > 5 for seen in of_ip)
    counts["fragments"] = sum(seen.offset > 0 or seen.flags & 1 for seen in of_ip)
    counts["cut"] = len(cut_frames)
    counts["with a C-TAG"] = sum(seen.vlan is not None for seen in frames.values())
    print(f"scapy {scapy.VERSION} built {len(frames)} packets:", ", ".join(f"{count} {what}" for what, count in counts.items()))
    print(f"{len(WRONG_READINGS)} wrong readings of them would change {min(shown.values())} answers each or more")


if __name__ == "__main__":
    if len(sys.argv) != 2:
        sys.exit("packets.py FILE")
    main(sys.argv[1])
