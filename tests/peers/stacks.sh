#!/usr/bin/env bash
# Compares `dshark stack` with tshark: the time of each packet, the kinds of its headers, and where each begins and ends.
#
# The program is $DSHARK where that is set, and else the one that the gate or `make demo` built; nothing is built
# here. The captures are those that this script makes (one packet for each rule of a header), and all libpcap files
# on Ethernet or raw IP of the packages in PACKAGES that are installed.
# stack_lines.py takes from tshark's layers those in front of the first that dshark does not know. By design:
# - tshark's item of ICMP is the whole message, dshark's the first 8 bytes: its end is not compared, and what tshark
#   reads inside an error message is payload.
# - tshark takes VXLAN by either port and also where its bit 0x08 is not set, dshark by the destination port alone
#   and only with that bit.
# - tshark shows the front of a header that is not whole in the captured bytes, or damaged; dshark ends before it.
# tshark is told not to put fragments or segments together, and not to guess layers by their bytes.
# It ends with 1 on a difference. It skips with a line, and ends with 0, where a tool or the program is missing.
PACKAGES='python3-dpkt golang-github-google-gopacket-dev'
. "$(dirname "$0")/../begin.sh" tests/peers/stacks.sh dpkg tshark capinfos python3 || exit 2

# Writes one capture of Ethernet and one of raw IP into a folder.
cat >"$room/make.py" <<'PYTHON'
import struct, sys

def ipv4(protocol, rest, length=None, flags=0, options=b''):
    words = 5 + len(options) // 4
    total = 4 * words + len(rest) if length is None else length
    head = struct.pack('>BBHHHBBH', 0x40 + words, 0, total, 7, flags, 64, protocol, 0)
    return head + bytes([10, 0, 0, 1, 10, 0, 0, 2]) + options + rest

def ipv6(following, rest, length=None):
    head = struct.pack('>IHBB', 0x60000000, len(rest) if length is None else length, following, 64)
    return head + bytes.fromhex('20010db8' + '00' * 11 + '01' + '20010db8' + '00' * 11 + '02') + rest

def eth(kind, rest):
    return bytes.fromhex('020000000002020000000001') + struct.pack('>H', kind) + rest

def tag(kind, rest):
    return struct.pack('>HH', 100, kind) + rest

def udp(rest=b'', to=9):
    return struct.pack('>HHHH', 40000, to, 8 + len(rest), 0) + rest

def tcp(words=5):
    return struct.pack('>HHIIBBHHH', 40000, 9, 1, 0, words * 16, 2, 1000, 0, 0) + b'\1' * (4 * words - 20)

def gre(kind, rest, bits=0):
    optional = sum(4 for bit in (0x8000, 0x2000, 0x1000) if bits & bit)
    return struct.pack('>HH', bits, kind) + bytes(range(optional)) + rest

def vxlan(rest):
    return bytes.fromhex('0800000000006400') + rest

echo = bytes.fromhex('0800f7ff00000000')
echo6 = bytes.fromhex('8000000000000000')
inner = eth(0x0800, ipv4(17, udp()))
on_ethernet = [
    inner,
    eth(0x0800, ipv4(6, tcp())),
    eth(0x0800, ipv4(6, tcp(8))),
    eth(0x0800, ipv4(1, echo + b'ping')),
    eth(0x0800, ipv4(17, udp(b'options'), options=b'\1\1\1\0')),
    eth(0x0800, ipv4(17, udp(vxlan(inner), 4789))),
    eth(0x0800, ipv4(17, udp(vxlan(eth(0x8100, tag(0x86DD, ipv6(17, udp())))), 4789))),
    eth(0x0800, ipv4(47, gre(0x0800, ipv4(17, udp())))),
    eth(0x0800, ipv4(47, gre(0x0800, ipv4(6, tcp()), 0x2000))),
    eth(0x0800, ipv4(47, gre(0x86DD, ipv6(58, echo6), 0xB000))),
    eth(0x0800, ipv4(47, gre(0x6558, inner))),
    eth(0x0800, ipv4(4, ipv4(17, udp()))),
    eth(0x0800, ipv4(41, ipv6(17, udp()))),
    eth(0x0800, ipv4(17, udp(), length=0)),
    eth(0x0800, ipv4(17, b'', length=20) + bytes(18)),
    eth(0x0800, ipv4(17, udp(b'fragment'), flags=0x2000)),
    eth(0x0800, ipv4(17, udp(b'fragment'), flags=0x0001)),
    eth(0x0800, ipv4(50, bytes(16))),
    eth(0x8100, tag(0x0800, ipv4(17, udp()))),
    eth(0x88A8, tag(0x8100, tag(0x0800, ipv4(17, udp())))),
    eth(0x0806, bytes.fromhex('00010800060400010200000000010a0000010000000000000a000002')),
    eth(0x86DD, ipv6(17, udp())),
    eth(0x86DD, ipv6(6, tcp(6))),
    eth(0x86DD, ipv6(58, echo6)),
    eth(0x86DD, ipv6(4, ipv4(17, udp()))),
    eth(0x86DD, ipv6(41, ipv6(17, udp()))),
    eth(0x86DD, ipv6(47, gre(0x0800, ipv4(17, udp())))),
    eth(0x86DD, ipv6(0, bytes([17, 0, 1, 4, 0, 0, 0, 0]) + udp())),
    eth(0x86DD, ipv6(60, bytes([17, 1, 1, 12]) + bytes(12) + udp())),
    eth(0x86DD, ipv6(44, bytes([17, 0, 0, 1, 0, 0, 0, 5]) + udp(b'fragment'))),
    eth(0x86DD, ipv6(44, bytes([17, 0, 0, 8, 0, 0, 0, 5]) + b'fragment')),
]
raw = [ipv4(17, udp()), ipv6(6, tcp()), ipv4(47, gre(0x0800, ipv4(17, udp()))), ipv6(0, bytes([58, 0, 1, 4, 0, 0, 0, 0]) + echo6)]

def write(name, order, magic, link, packets):
    with open(name, 'wb') as file:
        file.write(struct.pack(order + 'IHHIIII', magic, 2, 4, 0, 0, 262144, link))
        for k, packet in enumerate(packets):
            file.write(struct.pack(order + 'IIII', 1, k, len(packet), len(packet)) + packet)

write(sys.argv[1] + '/made-ethernet.pcap', '<', 0xA1B2C3D4, 1, on_ethernet)
write(sys.argv[1] + '/made-raw-big-endian.pcap', '>', 0xA1B23C4D, 101, raw)
PYTHON

python3 "$room/make.py" "$room" || exit 2

passed=0
failed=0
# shellcheck disable=SC2086
while read -r capture; do
    [ -f "$capture" ] || continue
    IFS=, read -r _ kind link _ < <(capinfos -T -r -m -t -E -c -M "$capture" 2>/dev/null)
    case $kind,$link in pcap,ether | pcap,rawip | nsecpcap,ether | nsecpcap,rawip) ;; *) continue ;; esac
    "$program" stack "$capture" 2>/dev/null | sed -e '$d' >"$room/ours"
    tshark -r "$capture" -o ip.defragment:FALSE -o ipv6.defragment:FALSE -o tcp.desegment_tcp_streams:FALSE \
        -T pdml 2>/dev/null | python3 tests/peers/stack_lines.py >"$room/theirs"
    if diff "$room/ours" "$room/theirs" >"$room/differences"; then
        passed=$((passed + 1))
    else
        failed=$((failed + 1))
        echo "FAILED $capture: $(grep -c '^<' "$room/differences") of $(wc -l <"$room/ours") packets; dshark <, tshark >"
        head -8 "$room/differences"
    fi
done < <(ls "$room"/made-*.pcap; dpkg -L $PACKAGES 2>/dev/null | grep -E '\.(pcap|cap)$' | sort)

echo "$passed passed, $failed failed"
[ "$failed" -eq 0 ]
