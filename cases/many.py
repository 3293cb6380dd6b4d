"""Cases of many members and lines: their inputs are made here, and so is what is wanted of them.

Each case is a function that gets the path of the program, and gives a list of what differs.
"""

import string
import subprocess

SECONDS = 20
MEMBERS = [(letter, 7001 + place) for place, letter in enumerate(string.ascii_lowercase[:16])]


def run(program, words, text):
    """Runs the program, and gives its status, its output and what it says on standard error."""
    done = subprocess.run([program, *words], input=text.encode(), capture_output=True, timeout=SECONDS)
    return done.returncode, done.stdout.decode(), done.stderr.decode()


def simulated(program, lines):
    """The lines that a script writes, of which no line is faulty."""
    status, text, told = run(program, ["sim"], "\n".join(lines) + "\n")
    if (status, told) != (0, ""):
        raise RuntimeError(f"status {status}: {told!r}: {text[-200:]!r}")
    return text.splitlines()


def unless(met, fault):
    """No fault if something is met."""
    return [] if met else [fault]


# ---- Joining


def pulls(member, known, sent):
    """A member pulls from a, which knows so many. Each Pull gets a Page, and a Page of six the next Pull."""
    packets = range(sent + 1, sent + 1 + (known // 6 + 1) * 2)
    return [f"pull {member} 0 7001", *(f"deliver {packet} 0" for packet in packets)], packets[-1]


def sixteen_members_join_by_one(program):
    """Sixteen members know nobody. Fifteen pull from a one after another, and once more: then all know all."""
    script = [f"open {member} {port} 0" for member, port in MEMBERS]
    sent = 0
    # In the first round a knows itself, those before this one, and this one by its Pull.
    for known in (range(2, 17), [16] * 15):
        for (member, _), knows in zip(MEMBERS[1:], known):
            lines, sent = pulls(member, knows, sent)
            script += lines
    script += [f"table {member}" for member, _ in MEMBERS]
    wanted = [f"record {member} alive 0 127.0.0.1:{port}" for member, port in MEMBERS] * 16
    return unless(simulated(program, script)[-len(wanted):] == wanted, "the tables differ")


# ---- Names that are forgotten


def told_to_z(member, now, sent, count):
    """z asks a member for its table, and so many packets of the two are delivered."""
    packets = range(sent + 1, sent + 1 + count)
    return [f"pull z {now} {8001 + member}", *(f"deliver {packet} {now}" for packet in packets)]


def opened_with_seeds(member, name):
    """Opens a member with 16 seeds that no other has."""
    seeds = (f"s{number:03}:{9000 + number}" for number in range(16 * member, 16 * member + 16))
    return f"open {name} {8001 + member} 0 {' '.join(seeds)}"


def told_of_a_stranger(program, forget_ms):
    """What z writes of a Page with f14 and eleven of its seeds. It knows 254 others then: its own seeds, and f00 to f13
    with theirs. Of these f05 and f03 left at 10, and f01 at 20."""
    script = ["set wire 3", "set gossip_ms 0", f"set forget_ms {forget_ms}", opened_with_seeds(15, "z")]
    script += [opened_with_seeds(member, f"f{member:02}") for member in range(15)]
    sent = 0
    # 18 records come in two Pages.
    for member in range(14):
        script += told_to_z(member, 0, sent, 4)
        sent += 4
    # A leaver tells eight, and then its first Page, which is full, tells z.
    for member, now in ((5, 10), (3, 10), (1, 20)):
        script += [f"leave f{member:02} {now}", *told_to_z(member, now, sent + 8, 2)]
        sent += 8 + 3
    script += told_to_z(14, 30, sent, 1)
    before = simulated(program, script)
    lines = simulated(program, [*script, f"deliver {sent + 2} 30"])[len(before):]
    return [line for line in lines if line.startswith(("record", "forgot"))]


def room_for_a_stranger(program):
    """f14 takes the last place. Then those that left make room, one for each further name: first the one that left
    first, and of two at one moment the one with the least name. When all of them are forgotten, further names are
    ignored. If no name is ever forgotten, f14 alone is known."""
    last = "record f14 alive 0 127.0.0.1:8015"
    seeds = [f"record s{number} alive 0 127.0.0.1:{9000 + number}" for number in (224, 225, 226)]
    wanted = {60_000: [last, *seeds, "forgot f03", "forgot f05", "forgot f01"], 0: [last]}
    return [f"{forget_ms}: {got}" for forget_ms, lines in wanted.items()
            if (got := told_of_a_stranger(program, forget_ms)) != lines]


def told_of_a_joiner(program, forget_ms):
    """What z writes of w, which asks it twice, and whom it has forgotten then. z knows 255 others: its own seeds, those
    from f00 to f13 with theirs, and u. They are alive when w asks for the first time. When it asks again, f00 has
    failed, which z probed first, and no other: a suspicion among 256 members lasts 2408 ms with these keys."""
    script = ["set wire 3", "set gossip_ms 0", "set indirect 0", "set alpha 1", "set confirmations 0",
              f"set forget_ms {forget_ms}", opened_with_seeds(15, "z"), "open w 8015 0 u:9999"]
    script += [opened_with_seeds(member, f"f{member:02}") for member in range(14)]
    sent = 0
    for member in range(14):
        script += told_to_z(member, 0, sent, 4)
        sent += 4
    # The Page of w has u, which takes the last place, and w.
    script += told_to_z(14, 0, sent, 2)
    told = []
    # Each round of z has its start, the end of the time for an Ack, and its end; the next one starts at once.
    for now, ticks in ((0, ()), (3410, (0, 500, 1000, 1000, 1500, 2000, 2000, 2500, 3000, 3000, 3408))):
        script += [f"tick z {moment}" for moment in ticks] + [f"pull w {now} 8016"]
        before = simulated(program, script)
        sent = sum(line.startswith("send ") for line in before)
        script.append(f"deliver {sent} {now}")
        lines = simulated(program, script)[len(before):]
        told.append([line for line in lines if line.startswith(("record", "forgot"))])
    return told


def room_once_one_has_failed(program):
    """A member joins one whose table is full of members that are alive, and is ignored. When the first of them has
    failed, it asks again, and takes the place of that one. If no name is ever forgotten, it is ignored again."""
    wanted = {60_000: [[], ["record w alive 0 127.0.0.1:8015", "forgot f00"]], 0: [[], []]}
    return [f"{forget_ms}: {got}" for forget_ms, lines in wanted.items()
            if (got := told_of_a_joiner(program, forget_ms)) != lines]


# ---- Packets that are lost


def word(step, port):
    """A random word, by the step and the member's port."""
    return (step * 7 + port * 3) * 2_654_435_761 % 2**32


def lost_packets(program):
    """A script of seven members and a dead eighth. In each step of 50 ms each member ticks twice, and those packets
    that are new by then are delivered, but for every third one."""
    script = ["set interval_ms 200", "set timeout_ms 100"]
    for member, port in MEMBERS[:7]:
        seeds = (f"{other}:{at}" for other, at in MEMBERS[:8] if other != member)
        script.append(f"open {member} {port} 0 {' '.join(seeds)}")
    sent = 0
    for step in range(80):
        now = step * 50
        for member, port in MEMBERS[:7]:
            script += [f"tick {member} {now} {word(step, port)}"] * 2
        packets = sum(line.startswith("send ") for line in simulated(program, script))
        script += [f"deliver {packet} {now + 25}" for packet in range(sent + 1, packets + 1) if packet % 3]
        sent = packets
    return script


def only_the_dead_member_fails(program):
    """If every third packet is lost, the dead member is taken as failed by all others, and a live one by none."""
    script = lost_packets(program)
    before = simulated(program, script)
    lines = simulated(program, script + [f"table {member}" for member, _ in MEMBERS[:7]])
    tables = lines[len(before):]
    dead = tables.count("record h failed 0 127.0.0.1:7008")
    live = tuple(f"record {member} failed" for member, _ in MEMBERS[:7])
    mistaken = [line for line in lines if line.startswith(live)]
    return unless(dead == 7 and len(tables) == 56, f"{dead} know that h failed") + mistaken


# ---- Much input


def a_script_of_a_mebibyte(program):
    """A member, and as many ticks as fit with it into 1,048,576 bytes; the last line has no newline."""
    script = "open a 7001 0\n" + "tick a 0\n" * 116_506 + "tick a 0"
    status, text, told = run(program, ["sim"], script)
    lines = text.splitlines()
    counts = sum(line.startswith("next ") for line in lines), sum(line.startswith("idle") for line in lines)
    met = len(script) == 1_048_576 and (status, told) == (0, "") and counts == (116_508, 116_506)
    return unless(met, f"{len(script)} bytes, status {status}, {told!r}, {counts} lines")


def answers(program, lines, wanted):
    """Runs `answer` for b over these lines, and compares."""
    status, text, told = run(program, ["answer", "--name", "b"], "".join(line + "\n" for line in lines))
    return unless((status, text.splitlines(), told) == (0, wanted, ""), f"status {status}, {text!r} {told!r}")


def a_flood_of_names(program):
    """Pings for another member, of which each says a further name, the last name first. The first 255 of them have
    places beside the own name, so m045 is the first of the others."""
    alive = [f"0104{f'm{number:03}'.encode().hex()}7f0000011b5800000000" for number in range(300)]
    flood = ["534c0101016100000001016301" + claim for claim in reversed(alive)]
    pings = ["534c0101016100000008016200", "534c0101016100000009016200"]
    acks = ["534c010301620000000806" + "".join(alive[45:51]), "534c010301620000000906" + "".join(alive[51:57])]
    return answers(program, flood + pings, acks)


def a_relay_too_many(program):
    """65 PingReqs for another, of which 64 are relayed, and the last is answered by a Nack."""
    requests = ["534c010201610000000901637f0000011b5b00"] * 64 + ["534c010201610000000701637f0000011b5b00"]
    pings = [f"534c01010162{number:08x}016300" for number in range(1, 65)]
    return answers(program, requests, pings + ["534c010401620000000700"])


# Packets of version 3: a Ping that says that one left, a Page, an Ack for a with an address of IPv6, a PingReq about a
# member that is reached there, and a Gossip of a group.
THREE = [
    "534c030100016100000007016201040163047f0000011b5b00000002",
    "534c030600016301040163047f0000011b5b00000002", "534c030100016100000007016201040163047f0000011b5b00000000",
    "534c030300016200000007016102040163047f0000011b5b00000000020164047f0000011b5c000000000162",
    "534c030200016100000007016306000000000000000000000000000000011b5b00",
    "534c03070367726e0161010101630620010db80000000000000000000000011b5b00000003"]


def faults_answered(program, lines, wanted):
    """Runs `answer` for b over these lines, of which each is faulty, and compares."""
    status, text, told = run(program, ["answer", "--name", "b"], "".join(line + "\n" for line in lines))
    return unless((status, text.splitlines(), told) == (3, wanted, ""), f"status {status}, {text!r} {told!r}")


def fronts_of_packets_are_short(program):
    """Each beginning of a packet of version 3 is short, from no byte to all but one."""
    fronts = [packet[:end] for packet in THREE for end in range(0, len(packet), 2)]
    return faults_answered(program, fronts, ["fault 1 Short"] * len(fronts))


def the_longest_packet(program):
    """A PingReq of a group with all names of 32 bytes, addresses of IPv6 and twelve claims has 1,207 bytes. The group
    isn't that of b, so it gives nothing. With a byte less or more it is faulty."""
    name, address = "20" + 32 * "6e", "06" + 16 * "ff" + "1b5b"
    claims = "0c" + 12 * ("02" + name + address + "3b9aca00" + name)
    longest = "534c0302" + name + name + "ffffffff" + name + address + claims
    faults = faults_answered(program, [longest[:-2], longest, longest + "00"], ["fault 1 Short", "fault 9 Trailing"])
    return faults + unless(len(longest) == 2 * 1207, f"{len(longest) // 2} bytes")


def at_most_255_names(program):
    """So many names of `order` are taken, and one more is not."""
    names = [f"n{number}" for number in range(256)]
    wanted = {255: (0, "n99\nn0\nn98\n", ""), 256: (3, "", "lg: bad names\n")}
    faults = []
    for count, row in wanted.items():
        got = run(program, ["order", "--names", ",".join(names[:count]), "--words", "254,0,252"], "")
        faults += unless(got == row, f"{count} names: {got}")
    return faults


CASES = [sixteen_members_join_by_one, room_for_a_stranger, room_once_one_has_failed, only_the_dead_member_fails,
         a_script_of_a_mebibyte, a_flood_of_names, a_relay_too_many, fronts_of_packets_are_short, the_longest_packet,
         at_most_255_names]
