"""The oracle: the published Rust over plain managers. It is built in a folder of its own, and asked by lists of commands."""
import os
import shutil
import subprocess
import sys
import tempfile

# How many requests of document 02 have landed, of those that change what a load answers.
REQUESTS = 5


def build(oracle, into, profiles=("release",)):
    """Copies the oracle's folder and compiles the copy; nothing is written to the folder itself. ORACLE_SRC names the folder that has
    dddmp/mod.rs; by default it stands beside the oracle."""
    oracle = os.path.abspath(oracle)
    if not os.path.isfile(os.path.join(oracle, "Cargo.toml")):
        sys.exit("%s is no folder of the oracle" % oracle)
    source = os.path.abspath(os.environ.get("ORACLE_SRC") or os.path.join(oracle, "../docs/src/crates/oxidd-dump/src"))
    for folder, _, names in os.walk(oracle):
        inner = os.path.relpath(folder, oracle)
        if inner.split(os.sep)[0] in ("target", "__pycache__"):
            continue
        os.makedirs(os.path.join(into, inner), exist_ok=True)
        for name in names:  # copyfile, since a copy must be writable even where the oracle isn't
            shutil.copyfile(os.path.join(folder, name), os.path.join(into, inner, name))
    for profile in profiles:
        subprocess.run(["cargo", "build", "-q", "--offline", "--profile", profile], cwd=into, env={**os.environ, "ORACLE_SRC": source}, check=True)


def program(folder, profile="release"):
    return os.path.join(os.path.abspath(folder), "target", profile, "oracle")


def reading(folder):
    """The second reading of documents 01 and 02: the oracle's model.py, with the requests of document 02 that have landed."""
    sys.path.insert(0, os.path.abspath(folder))
    import model
    model.REQUESTS = REQUESTS
    return model


def answers(command, commands, folder):
    """The answer to each command, as its lines. File names are relative to the folder."""
    with tempfile.NamedTemporaryFile("w", suffix=".txt") as f:
        f.write("".join(c + "\n" for c in commands))
        f.flush()
        out = subprocess.run([command, "batch", f.name], cwd=folder, stdout=subprocess.PIPE, check=True).stdout.decode("ascii")
    found = []
    for line in out.splitlines():
        if line.startswith("case "):
            found.append([])
        else:
            found[-1].append(line)
    assert len(found) == len(commands), (len(found), len(commands))
    return found
