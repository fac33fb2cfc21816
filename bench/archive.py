"""How fast an archive is worked on: shots and frames a second with one process and with two, the share of reading, memory.
    bench/archive.py FOLDER WORK [VERB..]    FOLDER has recordings; WORK is an empty folder for what is made
Each verb is run with 1 and with 2 processes. Seconds of processors are said too: on a machine that has other work they tell more
than the clock. `reading` is the share of a verb's processor time that opening the files, cutting their Ogg pages and joining
their packets takes by itself.
"""
import json
import os
import shutil
import subprocess
import sys
import tempfile
import time
from pathlib import Path

ROOT = Path(__file__).resolve().parents[1]
ENVIRONMENT = {**os.environ, "PYTHONPATH": str(ROOT / "python")}
READ = """
import sys, time
from wedgepetal._log import find
from wedgepetal._whole import Whole
root, shots = find([sys.argv[1]])
begun = time.process_time()
for shot in shots:
    try:
        Whole(f"{root}/{shot}", None)
    except Exception:
        pass
print(time.process_time() - begun)
"""


def reading(folder):
    """Seconds of a processor that reading alone takes."""
    return float(subprocess.run([sys.executable, "-c", READ, folder], env=ENVIRONMENT, check=True, capture_output=True, text=True).stdout)


def run(verb, folder, out, jobs, films):
    """Clock, processor seconds, totals, and the most memory that a process took, in bytes."""
    words = [sys.executable, "-m", "wedgepetal", "archive", verb, folder, "--out", str(out), "--jobs", str(jobs), "--json"]
    words += ["--films", str(films)] if verb == "check" else []
    begun = time.monotonic()
    with tempfile.TemporaryFile("w+") as said:
        done = subprocess.Popen(words, env=ENVIRONMENT, stdout=said)
        _, status, usage = os.wait4(done.pid, 0)
        clock = time.monotonic() - begun
        assert os.waitstatus_to_exitcode(status) in (0, 1), words
        said.seek(0)
        return clock, usage.ru_utime + usage.ru_stime, json.load(said), 1024 * usage.ru_maxrss


def paper(spent, size):
    """What archives of shots like these need: processor seconds and bytes of a shot, by verb."""
    print("\n| verb | shots | to read | 1 core | 16 cores | 256 cores | 256 cores read |\n|---|---|---|---|---|---|---|")
    for verb, seconds in spent.items():
        for shots in (10**4, 10**5, 10**6):
            times = " | ".join(span(shots * seconds / cores) for cores in (1, 16, 256))
            print(f"| {verb} | {shots:,} | {shots * size / 1e9:,.0f} GB | {times} | {256 * size / seconds / 1e9:.1f} GB/s |")


def span(seconds):
    for unit, length in (("days", 86400), ("h", 3600), ("min", 60)):
        if seconds >= 1.5 * length:
            return f"{seconds / length:.1f} {unit}"
    return f"{seconds:.0f} s"


def main():
    folder, work = sys.argv[1], Path(sys.argv[2])
    verbs = sys.argv[3:] or ["census", "tiles", "report", "y4m", "check"]
    read = reading(folder)
    print(f"reading alone: {read:.2f} s of a processor")
    print("| verb | processes | clock, s | processor, s | shots a second | frames a second | frames a processor second | reading | memory of a process |")
    print("|---|---|---|---|---|---|---|---|---|")
    frames, each = None, {}
    for verb in verbs:
        for jobs in (1, 2):
            out = work / f"{verb}-{jobs}"
            clock, spent, totals, memory = run(verb, folder, out, jobs, work / "y4m-1" / "y4m")
            frames = totals["frames"] or frames
            print(f"| {verb} | {jobs} | {clock:.1f} | {spent:.1f} | {totals['shots'] / clock:.1f} | {frames / clock:,.0f} | "
                  f"{frames / spent:,.0f} | {100 * read / spent:.0f} % | {memory / 1e6:.0f} MB |", flush=True)
            if jobs == 1:
                each[verb] = spent / totals["shots"]
            size = sum(path.stat().st_size for path in out.glob("y4m/**/*.y4m"))
            if size:
                print(f"films: {size / 1e6 / totals['shots']:.0f} MB a shot", file=sys.stderr)
            if verb != "y4m" or jobs == 2:
                shutil.rmtree(out)
    paper(each, sum(path.stat().st_size for path in Path(folder).glob("**/*") if path.is_file()) / totals["shots"])


if __name__ == "__main__":
    main()
