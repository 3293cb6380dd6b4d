"""What the program tells of members by their recordings, beside the slow judge of explanations."""

import json
import pathlib
import subprocess

from fuzzing.explain import Asked, explained
from fuzzing.explain_laws import broken_laws, verdicts_of
from fuzzing.explanation_rows import ROWS, wrong_rows
from fuzzing.recording import files_of
from recorded import SECONDS, first_difference, folder_of


def explanation(program, folder, asked):
    """What the program writes of a member by a folder, and its status."""
    ran = subprocess.run([program, *asked.words(str(folder))], capture_output=True, stdin=subprocess.DEVNULL,
                         timeout=SECONDS, check=False)
    return ran.stdout, ran.returncode


def misexplained(program, folder, asked):
    """What the program tells otherwise of a folder than the slow judge."""
    wanted, got = explained(files_of(pathlib.Path(folder)), asked), explanation(program, folder, asked)
    if got == wanted:
        return None
    told = f"status {got[1]}, wanted {wanted[1]}"
    return f"{' '.join(asked.words())}: {told if got[1] != wanted[1] else first_difference(got[0], wanted[0])}"


def verdicts_in(folder, name):
    """What of a folder changed a member's record to suspect, failed or left, in order."""
    return verdicts_of(files_of(pathlib.Path(folder)), name)


def unexplained(program, folder, name):
    """What the program leaves out of another member by a folder that has all entries: a change of its record to
    suspect, failed or left, or what that came from."""
    output, _ = explanation(program, folder, Asked(name, is_all=True, is_json=True))
    broken = broken_laws(files_of(pathlib.Path(folder)), name, json.loads(output)["accounts"])
    return f"{name.decode()}: {broken[0]}" if broken else None


def standstill_told(program, folder, name):
    """For how many seconds the clock of a node stood still in the minute before it suspected a member, by the latest
    account of that. None if it has no such suspicion."""
    output, _ = explanation(program, folder, Asked(name, is_json=True))
    steps = [it for account in json.loads(output)["accounts"] for note in account["notes"] for it in note["steps"]]
    told = [it["stood_still"] for it in steps if it["step"] == "minute"]
    return told[-1] / 1000 if told else None


def forms_of(name):
    """The forms in which a member is asked for."""
    return [Asked(name), Asked(name, is_all=True, has_entries=True), Asked(name, is_all=True, is_json=True)]


def misexplained_files(program, files, asked):
    """What the program tells otherwise of such files than the slow judge."""
    with folder_of(files) as folder:
        return misexplained(program, folder, asked)


def rows_of_explanations(program):
    """The worked rows of explanations, by the slow judge and by the program."""
    wrong = wrong_rows()
    wrong += [f"{it.what}: {told}" for it in ROWS if (told := misexplained_files(program, it.files, it.asked))]
    return next(iter(wrong), None)


# ---- The recordings of the repository

EXAMPLES = pathlib.Path(__file__).resolve().parent.parent / "examples" / "recordings"
# Which document shows what is told of which recording.
SHOWN = (("killed", "EXPLANATIONS.md"), ("slow", "PROTOCOL.md"))


def fault_of_example(program, folder):
    """What is wrong with a recording of the repository: with its replay, or with what is told of its members."""
    ran = subprocess.run([program, "replay", str(folder)], capture_output=True, stdin=subprocess.DEVNULL,
                         timeout=SECONDS, check=False)
    if ran.returncode:
        return f"{folder.name}: the replay ended with status {ran.returncode}"
    names = [bytes([it]) for it in b"abcde"]
    faults = [misexplained(program, folder, form) for name in names for form in forms_of(name)]
    faults += [unexplained(program, folder, it) for it in names]
    return next((f"{folder.name}: {it}" for it in faults if it), None)


def fault_of_document(program, name, document):
    """What is wrong with what a document shows of a recording."""
    text, _ = explanation(program, EXAMPLES / name, Asked(b"c"))
    command = f"$ lg explain c --record examples/recordings/{name}\n"
    shown = (EXAMPLES.parent.parent / "docs" / document).read_text(encoding="utf-8")
    return None if command + text.decode() in shown else f"docs/{document} shows something else of {name}"


def the_recordings_of_the_repository(program):
    """Those of `examples/recordings`: each replay is whole, and of each member the program tells what the slow judge
    does, and what the documents show."""
    faults = [fault_of_example(program, EXAMPLES / it) for it in ("killed", "slow", "lossy")]
    faults += [fault_of_document(program, name, document) for name, document in SHOWN]
    return next(filter(None, faults), None)
