"""What has to hold of all accounts of another member, by the entries that they tell of. Nothing here is taken from the
judge of explanations."""

from fuzzing.known import ROUND_END, SUSPICION
from fuzzing.recording import read_file
from fuzzing.wire import FAILED, LEFT, STATUS_WORDS, SUSPECT

VERDICTS = (SUSPECT, FAILED, LEFT)


def entries_of(files):
    """The entries of files, of each its number in its life."""
    heads = [it for _, data in files if (it := read_file(data)).head]
    return [row for it in heads for row in enumerate(it.entries, it.head.count)]


def verdicts_of(files, name):
    """What changed a member's record to suspect, failed or left: the number of each entry, the kind of the timer that
    fired, if one did, and the record."""
    return [(number, it.reply.fired and it.reply.fired[0], record) for number, it in entries_of(files)
            for record in it.reply.changed if record.member == name and record.status in VERDICTS]


def verdicts_told(accounts):
    """What accounts tell of such changes: the number of each entry, the status and the incarnation, and the steps
    before."""
    words = [STATUS_WORDS[it] for it in VERDICTS]
    return [((note["entry"], step["status"], step["incarnation"]), note["steps"][:place])
            for account in accounts for note in account["notes"] for place, step in enumerate(note["steps"])
            if step["step"] == "changed" and step["status"] in words]


def is_cause(step, fired, record):
    """Whether a step says what a change came from: a round that ended without an Ack, a time that was over, or else a
    claim that was told of this incarnation."""
    if fired == ROUND_END:
        return step == {"step": "ended", "failed": True}
    if fired == SUSPICION:
        return step == {"step": "time_over"}
    return step["step"] == "told" and step["incarnation"] == record.incarnation


def rounds_without_ping(account):
    """The entries of an account that tell the end of a round of which no Ping is told before."""
    steps = [(note["entry"], step["step"]) for note in account["notes"] for step in note["steps"]]
    probes = [it for it in steps if it[1] in ("pinged", "ended")]
    before = [None, *(step for _, step in probes)]
    return [entry for (entry, step), last in zip(probes, before) if step == "ended" and last != "pinged"]


def broken_laws(files, name, accounts):
    """What breaks a law in all accounts of another member, in words. Files are pairs of a number and bytes, and have to
    have all entries since each opening."""
    verdicts, told = verdicts_of(files, name), verdicts_told(accounts)
    wanted = [(number, STATUS_WORDS[record.status], record.incarnation) for number, _, record in verdicts]
    if wanted != [it for it, _ in told]:
        return [f"the changes {wanted} are told as {[it for it, _ in told]}"]
    causes = [f"what the change by entry {number} came from isn't told"
              for (number, fired, record), (_, steps) in zip(verdicts, told)
              if not any(is_cause(it, fired, record) for it in steps)]
    return causes + [f"the Ping of the round that ended by entry {number} isn't told"
                     for account in accounts for number in rounds_without_ping(account)]
