"""What has to hold of any group, by what its members wrote. Nothing here is taken from the model of a detector."""

from fuzzing.wire import ACK, FAILED, GOSSIP, PAGE, PING_REQ, STATUS_WORDS, read

# The words of the statuses of a member that is gone.
GONE = ("failed", "left")


def events_of(script, output):
    """Each line of a script that is a setting, an event or a question, as words, with the words of the lines that it
    wrote. A setting writes none."""
    rest = iter(output)
    for line in script:
        words = line.split(" ")
        if words[0] in ("", "#", "table"):
            continue
        if words[0] == "set":
            yield words, []
            continue
        lines = []
        for wrote in rest:
            lines.append(wrote.split(" "))
            if lines[-1][0] in ("next", "nobody", "fault"):
                break
        if not lines or lines[0][0] == "fault":
            return
        yield words, lines


class Witness:
    """Follows the events of a group, and notes what breaks a law.

    `known` has what each member knows of others, the incarnation and the status. `accused` has who had a round without
    an Ack of whom, or told in a Page that it failed, at which incarnation. `failed` has whose suspicion ran out at
    which incarnation. `left` has who left ever, and `leavers` those of them who weren't started again. `forgetful` has
    who forgets those who are gone, and `gentle` who sends version three. `page` is the Page that is heard.
    """

    def __init__(self):
        self.faults, self.names, self.sent = [], {}, []
        self.known, self.probes = {}, {}
        self.accused, self.failed = set(), set()
        self.left, self.leavers = set(), set()
        self.settings, self.forgetful, self.gentle, self.page = {}, set(), set(), None

    def note(self, fault):
        self.faults.append(fault)

    def take(self, words, lines):
        """Takes a setting, or an event and its lines."""
        if words[0] == "set":
            self.settings[words[1]] = words[2]
        if not lines or lines[0][0] == "nobody":
            return
        name = self.opened(words) if words[0] == "open" else words[1]
        if words[0] == "leave":
            self.left.add(name)
            self.leavers.add(name)
            self.probes.pop(name, None)
        self.page = None
        if words[0] == "deliver":
            _, to, packet = self.sent[int(words[1]) - 1]
            name = self.names[to]
            self.hear(name, packet)
        fired = next((line for line in lines if line[0] == "fired"), None)
        if fired:
            self.fire(name, fired)
        for line in lines:
            if line[0] == "forgot":
                self.known[name].pop(line[1], None)
        for line in lines:
            if line[0] == "record":
                self.record(name, line[1], line[2], int(line[3]), line[6] if len(line) > 5 else None)
        packets = [(line[2], read(bytes.fromhex(line[3]))) for line in lines if line[0] == "send"]
        for to, packet in packets:
            self.send(name, to, packet)
        if fired and fired[1] == "round-start" and packets:
            # The probe, with its number, its target, who may answer, and whether an Ack came.
            self.probes[name] = [packets[0][1].number, packets[0][1].target.decode(), set(), False]
            self.probes[name][2].add(self.probes[name][1])
            if name in self.leavers:
                self.note(f"{name} has left, and probes {self.probes[name][1]}")

    def opened(self, words):
        """A member is opened, or started again from nothing."""
        name = words[1]
        self.names[f"127.0.0.1:{int(words[2])}"] = name
        self.known[name] = {seed.partition(":")[0]: (0, "alive") for seed in words[4:]}
        self.known[name][name] = (0, "alive")
        self.probes.pop(name, None)
        self.leavers.discard(name)
        for are, is_one in ((self.forgetful, self.settings.get("forget_ms", "0") != "0"),
                            (self.gentle, self.settings.get("wire") == "3")):
            are.discard(name)
            if is_one:
                are.add(name)
        return name

    def hear(self, name, packet):
        self.page = packet if packet.kind == PAGE else None
        probe, is_meant = self.probes.get(name), packet.receiver.decode() in ("", name)
        if (probe and packet.kind == ACK and is_meant and packet.number == probe[0]
                and packet.sender.decode() in probe[2]):
            probe[3] = True

    def fire(self, name, fired):
        if fired[1] == "suspicion":
            incarnation, status = self.known[name].get(fired[2], (0, ""))
            if status != "suspect":
                self.note(f"a suspicion of {fired[2]} ran out at {name}, which didn't suspect it")
            self.failed.add((fired[2], incarnation))
        if fired[1] == "round-end":
            _, target, _, is_acked = self.probes.pop(name)
            if not is_acked and target in self.known[name]:
                self.accused.add((name, target, self.known[name][target][0]))
        if fired[1] == "forget" and self.known[name].get(fired[2], (0, ""))[1] not in GONE:
            self.note(f"{name} forgets {fired[2]}, which isn't gone")

    def record(self, name, member, status, incarnation, accuser):
        """A record of a member changed."""
        before = self.known[name].get(member)
        if before and before[0] > incarnation:
            self.note(f"the incarnation of {member} fell from {before[0]} to {incarnation} at {name}")
        if not before and status in GONE and name in self.forgetful:
            self.note(f"{name} takes it that {member} is gone, which it didn't know")
        if (status == "failed" and before and before[1] not in GONE and self.page and name in self.gentle
                and self.page.sender.decode() != member):
            self.note(f"{name} takes it of a table of {self.page.sender.decode()} that {member} failed")
        self.known[name][member] = incarnation, status
        self.judge(name, member, status, incarnation, accuser)

    def judge(self, name, member, status, incarnation, accuser):
        """A member says that another is suspected, has failed or left: somebody had a reason. The first two versions
        tell that one failed who left."""
        if status == "left" and member not in self.left:
            self.note(f"{name} says that {member} left, and it didn't")
        if status == "suspect" and (accuser, member, incarnation) not in self.accused:
            self.note(f"{name} says that {accuser} suspects {member} at {incarnation}, for no reason")
        if status == "failed" and (member, incarnation) not in self.failed and member not in self.left:
            self.note(f"{name} says that {member} failed at {incarnation}, and no suspicion of it ran out")

    def send(self, name, to, packet):
        self.sent.append((name, to, packet))
        probe = self.probes.get(name)
        if probe and packet.kind == PING_REQ and packet.number == probe[0] and to in self.names:
            probe[2].add(self.names[to])
        if packet.kind == GOSSIP and self.known[name].get(self.names.get(to), (0, ""))[1] in GONE:
            self.note(f"{name} gossips to {self.names[to]}, which is gone")
        for claim in packet.claims:
            accuser = claim.accuser.decode() if claim.accuser else None
            if packet.kind == PAGE and claim.status == FAILED:
                self.accused.add((name, claim.member.decode(), claim.incarnation))
            self.judge(name, claim.member.decode(), STATUS_WORDS[claim.status], claim.incarnation, accuser)


def broken_laws(script, output, is_perfect=False):
    """What of a script and its output breaks a law. In a perfect network nobody is suspected at all but leavers."""
    witness = Witness()
    for words, lines in events_of(script, output):
        witness.take(words, lines)
    if is_perfect:
        doubted = [it for it in output if it.startswith("record ") and it.split(" ")[2] != "alive"
                   and it.split(" ")[1] not in witness.left]
        witness.faults += [f"nothing was lost or late: {it}" for it in doubted[:1]]
    return witness.faults
