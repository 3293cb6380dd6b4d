"""What `init` writes, beside what `check` says of it.

Each case is a function that gets the path of the program, and gives a list of what differs.
"""

import pathlib
import re
import subprocess
import tempfile

SECONDS = 20
# What is set, as `check` writes it.
SET = {"name": "a", "wire": "3", "forget_ms": "86400000", "status": "127.0.0.1:8946", "history_limit": "1000"}
# The keys with an example in the place of a default: by default there is none, or it is made of other keys.
EXAMPLES = {"bind", "dice", "group", "key_file", "record"}
# A line with a key: one that is set, or one in a comment.
KEY_LINE = re.compile(r"^(# )?([a-z_]+) = (.+)$", re.M)


def written(program):
    """What `init` writes."""
    done = subprocess.run([program, "init"], capture_output=True, timeout=SECONDS, check=True)
    return done.stdout.decode()


def checked(program, text):
    """What `check` writes of a file with this text: the value of each key, and whether it is the default."""
    with tempfile.TemporaryDirectory(prefix="lg-init-") as folder:
        path = pathlib.Path(folder) / "a.toml"
        path.write_text(text, encoding="utf-8")
        done = subprocess.run([program, "check", "--config", path], capture_output=True, timeout=SECONDS, check=True)
    lines = re.findall(r"^([a-z_]+) = (.*?)( \(default\))?$", done.stdout.decode(), re.M)
    return {key: (value, bool(usual)) for key, value, usual in lines}


def keys_in(text):
    """The keys of the text with their values: those that are set, and those in comments."""
    lines = KEY_LINE.findall(text)
    return ({key: value for mark, key, value in lines if not mark}, {key: value for mark, key, value in lines if mark})


def the_file_is_taken(program):
    """`check` takes the file as it is. What is set is in force, and each other key has its default."""
    found = checked(program, written(program))
    values = {key: found[key][0] for key in SET}
    changed = sorted(key for key in found.keys() - SET.keys() if not found[key][1])
    return ([] if values == SET else [f"in force is {values}"]) + [f"{key} isn't the default" for key in changed]


def each_key_stands_in_the_file(program):
    """The file has each key that `check` lists, once, and no other."""
    text = written(program)
    names = [key for _, key, _ in KEY_LINE.findall(text)]
    wanted = checked(program, text)
    return ([f"the file lacks {key}" for key in wanted if key not in names]
            + [f"check lists no {key}" for key in names if key not in wanted]
            + [f"{key} stands there twice" for key in wanted if names.count(key) > 1])


def each_comment_has_the_default(program):
    """If the keys in comments are set too, `check` takes the file, and what is no example is the default."""
    text = written(program)
    known = checked(program, text)
    commented = keys_in(text)[1]
    found = checked(program, KEY_LINE.sub(lambda line: line[0][2:] if line[1] and line[2] in known else line[0], text))
    differ = sorted(key for key in commented.keys() & known.keys() - EXAMPLES if not found[key][1])
    same = sorted(key for key in EXAMPLES & known.keys() if found[key][1])
    return ([f"{key} = {commented[key]} isn't the default" for key in differ]
            + [f"{key} = {commented[key]} is the default, and no example" for key in same])


CASES = [the_file_is_taken, each_key_stands_in_the_file, each_comment_has_the_default]
