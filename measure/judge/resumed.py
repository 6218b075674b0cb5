#!/usr/bin/env python3
"""Goes on from logs of drawn files whose budget was spent, and checks each new log.

usage: resumed.py STEINER FILES

Each file is solved whole, and with a budget of so few nodes that the bound stays below the cost; from
that log runs go on with 0, 1, 10 and all nodes, by one worker and by three. Of each the check has to say
what the run said; no bound falls, no cost rises, and where the status is 0 the cost is the least one.
"""
import pathlib
import re
import subprocess
import sys
import tempfile


def run(*words):
    done = subprocess.run([str(w) for w in words], capture_output=True, text=True)
    return done.returncode, done.stdout


def numbers(text):
    return [int(re.search(rf"^{word} (\d+)$", text, re.M).group(1)) for word in ("Dual", "Primal")]


def main():
    steiner, count = sys.argv[1], int(sys.argv[2])
    with tempfile.TemporaryDirectory() as folder:
        files, runs, open_ones = 0, 0, 0
        for seed in range(1, 100 * count):
            if files == count:
                break
            n = 8 + seed % 50
            words = ["gen", seed, n, n + seed % (2 * n), 2 + seed % (n // 2)]
            if seed % 3 == 0:
                words.append("--prizes")
            stp, log, new = (pathlib.Path(folder, name) for name in ("a.stp", "a.log", "b.log"))
            stp.write_text(run(steiner, *words)[1])
            code, text = run(steiner, "solve", stp, "--plain")
            assert code == 0, (words, code)
            least = numbers(text)[1]
            code, text = run(steiner, "solve", stp, "--plain", "--nodes", seed % 3, "--log", log)
            if code != 3:
                continue
            files += 1
            old = numbers(text)
            for nodes in (0, 1, 10, 1_000_000):
                for workers in (1, 3):
                    code, text = run(steiner, "resume", stp, log, "--nodes", nodes, "--workers", workers, "--log", new)
                    dual, primal = numbers(text)
                    runs += 1
                    open_ones += code == 3
                    assert code == (0 if dual == primal else 3), (words, nodes, code)
                    assert old[0] <= dual <= least <= primal <= old[1], (words, nodes, dual, primal)
                    said = run(steiner, "check", stp, new)[1]
                    assert said == (f"optimal {primal}\n" if code == 0 else f"bound {dual} {primal}\n"), (words, said)
                    assert nodes < 1_000_000 or code == 0, words
        print(f"{files} files, {runs} runs, of which {open_ones} left the bound below the cost")


main()
