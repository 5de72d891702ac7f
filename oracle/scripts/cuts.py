#!/usr/bin/env python3
"""Makes what cuts_test must write: cuts.py CRATE ORACLE, where CRATE has data/worked.sym and gets stdout."""
import re
import subprocess
import sys


def main(crate, oracle):
    with open(crate + "/data/worked.sym", "rb") as f:
        file = f.read()
    cuts = [file[:n] for n in range(len(file) + 1)]
    script = "".join("parse %s\n" % (cut.hex() or "-") for cut in cuts)
    said = subprocess.run([oracle], input=script.encode(), capture_output=True, check=True).stdout.decode().splitlines()
    assert len(said) == len(cuts)
    with open(crate + "/stdout", "w") as out:
        for n, answer in enumerate(said):
            kind, rest = answer.split(" ", 1)
            # An error has its number, a name and, for 10, two counts; otherwise the counts come first, then arch and more.
            numbers = re.findall(r"\b\d+\b", rest.split(" arch")[0])
            out.write(" ".join([str(n)] + (["0"] if kind == "ok" else []) + numbers) + "\n")


main(*sys.argv[1:])
