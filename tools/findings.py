"""What preflight finds in the captures of a job: lines that say where to look before a run is believed."""

from collections import Counter, defaultdict

HOUR = 3_600_000_000_000  # the longest skew, in nanoseconds
FAR = 0.25  # between the parts of records in which two captures take a variable from one field
FEW = 0.5  # of its keys; a capture that shares less with every other has no copies, or no such key


def milliseconds(time):
    """A time in nanoseconds, for people."""
    return f"{time / 1_000_000:.3f}".rstrip("0").rstrip(".") + " ms"


def tunnel_ports(point):
    """UDP ports other than the job's whose packets are VXLAN with a packet inside, with how many of them there are."""
    ends = [record for record, kinds in enumerate(point.kinds) if kinds and kinds[-1] == "udp"]
    ports = Counter(point.field("udp[-1].dport")[record] for record in ends)
    for port, count in ports.most_common(3):
        if count < 10 or count * 20 < len(point.times) or port in ("0", point.port):
            continue
        parts, _ = point.stack(port=port)
        of_port = [record for record in ends if point.field("udp[-1].dport")[record] == port]
        inside = sum("vxlan[" in parts[record][1] and parts[record][1].count("eth[") > 1 and
                     parts[record][1].split("vxlan[")[1].count(" ip") > 0 for record in of_port)
        if inside * 10 >= count * 9:
            yield port, inside


def look_at_point(point):
    """What one capture shows by itself."""
    count = len(point.times)
    if not count:
        yield f"{point.name}: it has no records" + (f" of interface {point.interface}" if point.interface is not None else "")
        return
    if point.ending == "cut" and not point.is_front:
        yield f"{point.name}: the file ends inside a record, so its last packets are missing"
    if point.short:
        yield (f"{point.name}: of {point.short} records only {point.snaplen} bytes or less were captured: an inner header "
               "beyond that is not seen, and [-1] then names an outer one. Record with whole headers")
    bare = point.kinds.count(())
    if bare:
        yield f"{point.name}: {bare} records have no header that dshark reads, so no variable"
    older, skew = point.out_of_order()
    late = point.late()
    if late and skew <= HOUR:
        yield (f"{point.name}: {older} records are older than one before them, {late} by more than the skew of {point.skew}: "
               f"a skew of {skew} for this capture takes all of them in")
    elif late:
        yield (f"{point.name}: {late} records are late, one by {milliseconds(skew)}, which no skew takes in: its clock was set "
               "back, or files were joined in the wrong order")
    for port, inside in tunnel_ports(point):
        yield (f"{point.name}: {inside} records are VXLAN to the UDP port {port}, which is read as payload: the job has "
               f"vxlan_port {point.port}")


def look_at_spans(points):
    """Captures that were not recorded at the same time."""
    spans = [(point.name, min(point.times), max(point.times), point.is_front) for point in points if point.times]
    if len(spans) < 2:
        return
    start, end = max(first for _, first, _, _ in spans), min(last for _, _, last, _ in spans)
    if start > end:
        late = next(name for name, first, _, _ in spans if first == start)
        early = next(name for name, _, last, _ in spans if last == end)
        yield (f"{late}: it begins {milliseconds(start - end)} after {early} has ended: they were recorded at different "
               "times, or a clock is wrong by that much")
        return
    for name, first, last, is_front in spans:
        outside = (start - first) + (0 if is_front else last - end)
        if outside * 10 > last - first:
            yield (f"{name}: {milliseconds(outside)} of its {milliseconds(last - first)} are outside of the time in which all "
                   "captures were recorded: packets of that time look lost")


def look_at_variables(points, job, taken):
    """Variables that say something else than was meant, in the records that the job takes."""
    for point in points:
        records = [of.record for of in taken[point.name]]
        if point.times and not records:
            yield f"{point.name}: the job takes none of its {len(point.times)} records: they lack a variable, or the filter leaves them out"
        for var in job["vars"]:
            column = point.take(var["take"])
            tunnel = sum(column[record] is not None and point.is_of_tunnel(record, column[record][1]) for record in records)
            if tunnel:
                yield (f"{point.name}: {var['name']} is that of a tunnel in {tunnel} of the {len(records)} records that the job "
                       "takes: a deeper header is of another kind. Put its field first in take, or leave these out by the filter")
            zero = sum(column[record] is not None and not column[record][0].strip("0x.:") for record in records)
            if var["name"] in job["key"] and zero * 100 >= len(records) > 0:
                rest = "so the rest of the key has to" if len(job["key"]) > 1 else "and nothing else is in the key"
                yield (f"{point.name}: {var['name']} is 0 in {zero} of the {len(records)} records that the job takes: it does "
                       f"not tell these apart, {rest}")


def look_at_sources(points, job, taken):
    """Variables that one capture takes from another field than the others do."""
    for var in (var for var in job["vars"] if len(var["take"]) > 1):
        shares = {}
        for point in points:
            column = point.take(var["take"])
            fields = Counter(column[of.record][1] for of in taken[point.name] if column[of.record] is not None)
            if fields:
                shares[point.name] = {field: fields[field] / sum(fields.values()) for field in var["take"]}
        for field in var["take"]:
            most, least = (choose(shares, key=lambda name: shares[name][field], default=None) for choose in (max, min))
            if most and shares[most][field] - shares[least][field] > FAR:
                yield (f"{most}: {var['name']} comes from {field} in {shares[most][field]:.0%} of the records that the job takes, and in "
                       f"{least} in {shares[least][field]:.0%}: are these the same packets, read to the same depth?")
                break


def again(taken):
    """Of each record whose key an earlier one of the capture has, the time since the newest of these."""
    newest, after = {}, []
    for of in sorted(taken):
        after += [of.time - newest[of.key]] if of.key in newest else []
        after += [0] * (of.copies - 1)
        newest[of.key] = of.time
    return after


def look_at_keys(points, job, taken):
    """Keys that are not those of one packet in all captures."""
    for point in points:
        near = sum(after <= job["window"] for after in again(taken[point.name]))
        if near:
            yield (f"{point.name}: {near} records have the key of another one at most the window before: a packet that came "
                   "back or is sent again, or a key that does not tell packets apart")
    keys = {point.name: {of.key for of in taken[point.name]} for point in points}
    for name, own in keys.items():
        others = [other for other in keys if other != name and keys[other]]
        if not own or not others:
            continue
        best = max(others, key=lambda other: len(own & keys[other]))
        common = len(own & keys[best])
        if common < FEW * len(own):
            yield f"{name}: {common} of its {len(own)} keys are in {best}, and no more in any other capture" + without(job, own, keys, others)


def without(job, own, keys, others):
    """Whether the key would be shared if one of its variables were not in it."""
    for place, var in enumerate(job["key"]) if len(job["key"]) > 1 else []:
        def less(all_of):
            return {key[:place] + key[place + 1:] for key in all_of}
        rest = less(own)
        for other in others:
            common = len(rest & less(keys[other]))
            if common >= 0.9 * len(rest):
                return f"; without {var} {common} of {len(rest)} are in {other}: {var} is rewritten on the way"
    return ""


def unique(taken):
    """The only record of each key that one record alone has."""
    counts = Counter(of.key for of in taken)
    return {of.key: of for of in taken if counts[of.key] == 1 and of.copies == 1}


def ahead(first, second, firsts, seconds):
    """Bounds of how far the clock of the second capture is ahead of that of the first, each None where no packet went
    that way: a packet cannot arrive before it leaves."""
    low, high = None, None
    for key in firsts.keys() & seconds.keys():
        hops = first.hop(firsts[key].record), second.hop(seconds[key].record)
        if None in hops or hops[0] == hops[1]:
            continue
        between = seconds[key].time - firsts[key].time
        if hops[0] > hops[1]:
            high = between if high is None or between < high else high
        else:
            low = between if low is None or between > low else low
    return low, high


def look_at_clocks(points, taken):
    """Captures whose clocks are apart, the one that differs from most others first."""
    of_key = {point.name: unique(taken[point.name]) for point in points}
    bounds = {}
    for first in points:
        for second in points:
            if first is not second:
                bounds[first.name, second.name] = ahead(first, second, of_key[first.name], of_key[second.name])
    left = [point.name for point in points]
    while True:
        apart = Counter(name for name in left for other in left if name != other and is_apart(*bounds[other, name]))
        if not apart:
            return
        most = max(apart.values())
        wrong = [name for name in left if apart[name] == most][-1]
        left.remove(wrong)
        yield clock_line(wrong, {other: bounds[other, wrong] for other in left})


def is_apart(low, high):
    return low is not None and low > 0 or high is not None and high < 0 or None not in (low, high) and low > high


def clock_line(wrong, bounds):
    """How far a clock is ahead or behind, by all others that are left."""
    lows = [low for low, _ in bounds.values() if low is not None]
    highs = [high for _, high in bounds.values() if high is not None]
    low, high = max(lows, default=None), min(highs, default=None)
    if None not in (low, high) and low > high:
        return f"{wrong}: its clock runs faster or slower than others, or was set while it recorded: one offset does not set it right"
    if high is None or low is not None and low > 0:
        amount = f"{milliseconds(low)} to {milliseconds(high)}" if high is not None else f"at least {milliseconds(low)}"
        way = "ahead"
    else:
        amount = f"{milliseconds(-high)} to {milliseconds(-low)}" if low is not None else f"at least {milliseconds(-high)}"
        way = "behind"
    middle = -(low + high) // 2 if None not in (low, high) else -(low if high is None else high)
    return f"{wrong}: its clock is {way} by {amount}: by the TTL packets arrive before they leave. An offset of {middle} sets it right"


def look_at_exits(points, job, taken):
    """Exits of a drop job where packets begin."""
    if job["query"]["kind"] != "drop":
        return
    hops = defaultdict(dict)
    for point in points:
        for of in taken[point.name]:
            hop = point.hop(of.record)
            if hop is not None:
                hops[of.key][point.name] = max(hop, hops[of.key].get(point.name, 0))
    for name in job["query"]["exits"]:
        begins = sum(len(of) > 1 and name in of and all(of[name] > hop for other, hop in of.items() if other != name)
                     for of in hops.values())
        if begins:
            yield (f"{name}: {begins} packets begin at this exit, by their TTL, so they count as arrived wherever they are lost: "
                   "leave that direction out by the filter, and ask for it by a job of its own")
