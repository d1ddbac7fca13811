#!/usr/bin/env python3
"""pictures.py PROGRAM [--write]: whether the picture that `am2_lab chart` draws of each example with a report is the one stored beside it, examples/NAME.svg. With
--write it stores them."""
import pathlib
import subprocess
import sys

from chart import form_of


def main(program, write):
    top = pathlib.Path(__file__).resolve().parent.parent / "examples"
    bad = total = 0
    for scenario in sorted(top.glob("*.am2")):
        text, report = scenario.read_text(), scenario.with_suffix(".out")
        if "segment" in text or not report.exists() or not report.read_text().startswith("am2 report 1\n"):
            continue
        total += 1
        done = subprocess.run([program, "chart", form_of(text)], input=text + report.read_text(), capture_output=True, text=True, check=False)
        stored = scenario.with_suffix(".svg")
        if write and done.returncode == 0:
            stored.write_text(done.stdout)
        if done.returncode != 0 or not stored.exists() or stored.read_text() != done.stdout:
            bad += 1
            print(f"{stored.name} isn't what is drawn of {scenario.name}")
    print(f"pictures: {total} compared, {bad} differ")
    return 1 if bad or not total else 0


if __name__ == "__main__":
    if len(sys.argv) < 2:
        sys.exit(__doc__)
    sys.exit(main(sys.argv[1], "--write" in sys.argv))
