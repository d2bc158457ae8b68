#!/usr/bin/env python3
"""All vectors against a model.

    python3 check.py REPO ADAPTER.antt DEPS [SEED]

With SEED, fresh vectors of that seed take the place of the stored ones (needs Python's module unicorn, and
aarch64-linux-gnu-objdump); runs.txt stays. Exit status 0 when all but grey.txt agree.
"""
import os
import subprocess
import sys
import tempfile

HERE = os.path.dirname(os.path.abspath(__file__))
repo, adapter, deps = [os.path.abspath(p) for p in sys.argv[1:3]] + [sys.argv[3]]
v = HERE + "/vectors"
if len(sys.argv) > 4:
    d = tempfile.mkdtemp(prefix="vectors")
    subprocess.run([sys.executable, "generate.py", sys.argv[4], d + "/instructions.txt"], cwd=HERE, check=True)
    subprocess.run([sys.executable, "machine.py", sys.argv[4], d + "/machine.txt", d + "/words.txt", d + "/grey.txt", d + "/instructions.txt"], cwd=HERE, check=True)
else:
    d = v
bad = 0
for name in ("instructions", "machine", "words", "grey"):
    print(name + ": ", end="", flush=True)
    r = subprocess.run([sys.executable, HERE + "/convert.py", repo, adapter, deps, "%s/%s.txt" % (d, name)])
    bad += r.returncode != 0 and name != "grey"
print("runs: ", end="", flush=True)
bad += subprocess.run([sys.executable, HERE + "/runs.py", "check", repo, adapter, deps, v + "/runs.txt"]).returncode != 0
print("ALL AGREE" if not bad else "%d FILES DIFFER" % bad)
sys.exit(bad != 0)
