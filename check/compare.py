#!/usr/bin/env python3
"""compare.py PROGRAM FIRST COUNT: random texts of the seeds FIRST, FIRST + 1 .., each given to the program and to the second reading, which must agree byte by byte: scenarios for
`step`, `run` and `segments`, and sessions, each as it is and with one line or two changed, and for `check` reports that were mostly spoiled."""
import random
import subprocess
import sys

from randoms import faulty, run_script, segments_script, session_script, spoiled, step_script, with_log
from reading import answer

SCRIPTS = {"step": step_script, "run": run_script, "segments": segments_script, "session": session_script}


def texts(seed):
    """The words of a command and its input, for each kind."""
    for word, script in SCRIPTS.items():
        text, draw = script(seed), random.Random(f"faulty {word} {seed}")
        yield [word], text
        for _ in range(2):
            yield [word], faulty(draw, text)
    for form in ("step", "run"):
        draw, text = random.Random(f"check {form} {seed}"), SCRIPTS[form](seed)
        status, report = answer([form], text)
        if status == 0:
            yield ["check", form], with_log(draw, text) + spoiled(draw, report)
    yield ["make", str(seed)], ""


def differs(program, words, text):
    wanted = answer(words, text)
    found = subprocess.run([program, *words], input=text.encode("latin-1"), capture_output=True, check=False)
    return (found.returncode, found.stdout.decode()) != wanted or found.stderr


def main(program, first, count):
    compared = bad = 0
    for seed in range(first, first + count):
        for words, text in texts(seed):
            if words[0] == "make" and seed > first:
                continue
            compared += 1
            if differs(program, words, text):
                bad += 1
                print(f"the second reading differs: am2 {' '.join(words)} on the random text {seed}")
    print(f"second reading: {compared} compared, {bad} differ")
    return 1 if bad or compared < 4 * count else 0


if __name__ == "__main__":
    sys.exit(main(sys.argv[1], int(sys.argv[2]), int(sys.argv[3])))
