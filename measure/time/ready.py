"""Solves files by one worker, by four such runs at once, and by four workers: ready.py STEINER FILE ..

Writes a line of a table for each file: for each of the three the time by the clock, how many threads are running or
ready to run on the mean, and the time of processors that the runs got. Threads that are ready and get less than
their number of processors are kept waiting by the machine, and not by each other. Linux alone."""
import os
import subprocess
import sys
import time

PAUSE = 0.01


def ready(pid):
    """How many threads of a process are running or ready to run."""
    count = 0
    try:
        for thread in os.listdir(f"/proc/{pid}/task"):
            with open(f"/proc/{pid}/task/{thread}/stat") as file:
                count += file.read().rsplit(")", 1)[1].split()[0] == "R"
    except OSError:
        # It ended meanwhile.
        pass
    return count


def cell(commands):
    """The time of some runs at once until the last ends, the mean of their ready threads, and their processors' time."""
    begin = time.monotonic()
    left = {subprocess.Popen(words, stdout=subprocess.DEVNULL).pid for words in commands}
    looks, seen, spent = 0, 0, 0.0
    while left:
        looks += 1
        seen += sum(ready(pid) for pid in left)
        for pid in list(left):
            done, status, used = os.wait4(pid, os.WNOHANG)
            if done:
                if status:
                    sys.exit(f"{commands[0]}: {status}")
                left.remove(pid)
                spent += used.ru_utime + used.ru_stime
        time.sleep(PAUSE)
    seconds = time.monotonic() - begin
    return f"{seconds:.2f} s, {seen / looks:.1f} ready, {spent:.1f} s of processors"


def main():
    steiner, paths = sys.argv[1], sys.argv[2:]
    print("| file | one worker | four such runs at once | four workers |")
    print("|---|---|---|---|")
    for path in paths:
        one = [steiner, "solve", path]
        cells = [cell([one]), cell([one] * 4), cell([one + ["--workers", "4"]])]
        print(f"| {os.path.basename(path)} | " + " | ".join(cells) + " |", flush=True)


main()
