"""An archive on a Dask cluster of two processes, one of which is killed in the middle: nothing is lost or counted twice.
    dask_cluster.py FOLDER    (with tests/python's shots.py and the module on the path)
"""
import json
import logging
import os
import signal
import sys
import threading
import time
from pathlib import Path

import distributed
import wedgepetal
from shots import make


def lines(out):
    """The shots of a log."""
    place = out / "log.jsonl"
    text = place.read_text().splitlines(True)[1:] if place.exists() else []
    return [json.loads(line)["shot"] for line in text if line.endswith("\n")]


def kill_one(client, out, when):
    """Kills a worker once so many shots are done."""
    pids = client.run(os.getpid)
    while len(lines(out)) < when:
        time.sleep(0.002)
    os.kill(next(iter(pids.values())), signal.SIGKILL)
    print(f"dask: a worker of {len(pids)} was killed after {len(lines(out))} shots", flush=True)


def main():
    folder = Path(sys.argv[1])
    make(folder / "shots", 60)
    for verb in ("census", "report"):
        wanted, out = folder / f"wanted-{verb}", folder / f"out-{verb}"
        wedgepetal.archive(verb, folder / "shots", wanted, jobs=2)
        with distributed.LocalCluster(n_workers=2, threads_per_worker=1, processes=True, dashboard_address=None,
                                      silence_logs=logging.CRITICAL) as cluster:
            with distributed.Client(cluster) as client:
                killer = threading.Thread(target=kill_one, args=(client, out, 10))
                killer.start()
                found = wedgepetal.archive(verb, folder / "shots", out, client=client)
                killer.join()
        done = lines(out)
        assert len(done) == len(set(done)) == 64, (len(done), len(set(done)))
        for name in ("results.jsonl", "totals.json"):
            assert (wanted / name).read_bytes() == (out / name).read_bytes(), name
        assert not list(out.glob("**/*.part"))
        print(f"dask: {verb} of {len(done)} shots, each once, as without it: {found}")


if __name__ == "__main__":
    main()
