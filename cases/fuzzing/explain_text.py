"""The text of accounts: the sentences that `lg explain` writes of them, by docs/EXPLANATIONS.md, or their JSON."""

import datetime
import json

from fuzzing.wire import ALIVE, FAILED, LEFT, STATUS_WORDS, SUSPECT

# The days of 400 years, after which dates come again.
DAYS_OF_400_YEARS = 146_097
HEADINGS = {"suspect": "was suspected", "failed": "failed", "left": "left"}
MISSING_LINE = "  Some of the past is missing, so scores and timeouts may not be told."


def date_text(wall):
    """A wall time as a date in UTC."""
    days, seconds = divmod(wall // 1000, 86_400)
    cycles, days = divmod(days, DAYS_OF_400_YEARS)
    time = datetime.datetime(1970, 1, 1) + datetime.timedelta(days, seconds)
    return f"{time.year + 400 * cycles:04}-{time:%m-%d %H:%M:%S}"


def list_text(words):
    """Some words as a list of a sentence: `A`, `A and B` or `A, B and C`."""
    *front, last = words
    return f"{', '.join(front)} and {last}" if front else last


def asked_text(step):
    helpers = [it["member"] or it["address"] for it in step["helpers"]]
    return f"We asked {list_text(helpers)} to ping it." if helpers else "There was nobody to ask."


def score_text(step):
    before, after = step["before"], step["after"]
    return f"Our health score {'rose' if after > before else 'fell'} from {before} to {after}."


def told_text(step, sender):
    what = {STATUS_WORDS[ALIVE]: "it is alive", STATUS_WORDS[SUSPECT]: f"{step['accuser']} suspects it",
            STATUS_WORDS[FAILED]: "it failed", STATUS_WORDS[LEFT]: "it left"}[step["status"]]
    place = f", at {step['address']}" if step["status"] == STATUS_WORDS[ALIVE] else ""
    return f"{sender} told us that {what} at incarnation {step['incarnation']}{place}."


def changed_text(step):
    at = f"at incarnation {step['incarnation']}."
    return {STATUS_WORDS[ALIVE]: f"We took it as alive {at}", STATUS_WORDS[SUSPECT]: f"We suspected it {at}",
            STATUS_WORDS[FAILED]: "We took it as failed.", STATUS_WORDS[LEFT]: "We took it as left."}[step["status"]]


def sentence_of(step, sender):
    """The sentence of a step."""
    match step["step"]:
        case "pinged":
            return f"We pinged it (probe {step['probe']}, at {step['address']})."
        case "unanswered":
            return f"No Ack came within {step['within']} ms."
        case "asked":
            return asked_text(step)
        case "nack":
            return f"{step['by']} sent a Nack: no Ack of it had come."
        case "ack":
            return f"{step['by']} sent an Ack."
        case "ended":
            return "The round ended without an Ack." if step["failed"] else "The round ended."
        case "score":
            return score_text(step)
        case "told":
            return told_text(step, sender)
        case "time_over":
            return "The time was over, and no refutation had come."
        case "changed":
            return changed_text(step)
        case "timeout":
            return (f"We knew {step['live']} live members. After {step['confirmations']} of {step['most']} "
                    f"confirmations the timeout was {step['timeout']} ms.")
        case "minute":
            return (f"In the minute before, {step['ended']} of our rounds ended, {step['suspected']} of them with a "
                    f"suspicion, and our clock stood still for {step['stood_still']} ms.")


def note_line(note, asked):
    """The line of an entry."""
    number = f" [{note['entry']}]" if asked.has_entries else ""
    return f"  {note['moment']}{number}  " + " ".join(sentence_of(it, note["told_by"]) for it in note["steps"])


def account_lines(account, asked):
    """The lines of an account."""
    by = f"as {account['told_by']} told" if account["told_by"] else "here"
    heading = (f"{asked.name.decode()} {HEADINGS[account['status']]} at {account['moment']} ms "
               f"({date_text(account['wall'])}), {by}.")
    notes = [note_line(note, asked) for note in account["notes"]]
    return [heading, *notes, *([] if account["known"] else [MISSING_LINE])]


def lines_of(accounts, asked):
    """The lines of the accounts that are told."""
    if asked.is_json:
        return [json.dumps({"member": asked.name.decode(), "accounts": accounts}, separators=(",", ":"))]
    if not accounts:
        return [f"{asked.name.decode()} has not been suspected, and has neither failed nor left."]
    return [line for account in accounts for line in account_lines(account, asked)]
