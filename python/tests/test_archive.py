"""Archives on one machine: results that do not depend on who does the work, cuts, killed processes, faults."""
import json
import os
import signal
import subprocess
import sys
import time
from pathlib import Path

import numpy as np
import pytest
import wedgepetal
from shots import make
from wedgepetal import Census, Settings
from wedgepetal.__main__ import main

SHOTS = 24
KILLERS = ("shot-03.ogv", "shot-11.ogv")


@pytest.fixture(scope="module")
def shots(tmp_path_factory):
    folder = tmp_path_factory.mktemp("archive") / "shots"
    make(folder, SHOTS)
    return folder


def lines(out):
    """The lines of a log behind its first."""
    return [json.loads(line) for line in (out / "log.jsonl").read_text().splitlines(True)[1:] if line.endswith("\n")]


def made(out):
    """All that was made of shots, by name."""
    files = {}
    for path in sorted(out.glob("*/**/*")):
        if path.is_file():
            data = path.read_bytes()
            if path.suffix == ".npz":  # has times
                data = {name: array.tobytes() for name, array in np.load(path).items()}
            files[str(path.relative_to(out))] = data
    return files


@pytest.mark.parametrize("verb", ["census", "tiles", "y4m", "report"])
def test_results_do_not_depend_on_the_number_of_processes(shots, tmp_path, verb):
    one = wedgepetal.archive(verb, shots, tmp_path / "1", jobs=1)
    two = wedgepetal.archive(verb, shots, tmp_path / "2", jobs=3)
    for name in ("results.jsonl", "totals.json"):
        assert (tmp_path / "1" / name).read_bytes() == (tmp_path / "2" / name).read_bytes()
    assert made(tmp_path / "1") == made(tmp_path / "2")
    assert [line["shot"] for line in one.lines] == sorted(line["shot"] for line in lines(tmp_path / "2"))
    assert one.statuses == two.statuses and one.statuses["failed"] == 1 and one.statuses["whole"] == SHOTS
    assert not one and repr(one) == f"<Archive of 28 shots, {verb}: 1 failed, 3 faults, 24 whole>"
    wrong = {line["shot"]: line for line in one.lines if line["status"] != "whole"}
    assert set(wrong) == {"older/gap.ogv", "other.ogv", "refused.ogv", "small.packets"}
    assert wrong["other.ogv"]["error"] == "NoRecording: no Ogg file and no packet file"
    assert wrong["refused.ogv"]["refusals"] == {"4": 1}
    assert "page 8 is damaged or missing" in wrong["older/gap.ogv"]["said"][0]


def test_the_sum_of_censuses(shots, tmp_path):
    found = wedgepetal.archive("census", shots, tmp_path)
    whole = [path for path in shots.glob("**/*.ogv") if path.name != "other.ogv"] + [shots / "small.packets"]
    assert found.census == wedgepetal.census(whole)
    assert Census.of(json.loads((tmp_path / "totals.json").read_text())["report"]) == found.census


def test_tiles_of_an_archive(shots, tmp_path):
    wedgepetal.archive("tiles", shots, tmp_path, settings=Settings(8, plane=1))
    kept = np.load(tmp_path / "tiles" / "shot-00.npz")
    wanted = wedgepetal.tiles(shots / "shot-00.ogv", Settings(8, plane=1))
    np.testing.assert_array_equal(kept["maps"], wanted)
    np.testing.assert_array_equal(kept["times"], wanted.times)


def test_films_are_checked(shots, tmp_path):
    wedgepetal.archive("y4m", shots, tmp_path / "films")
    films = tmp_path / "films" / "y4m"
    (films / "shot-00.y4m").write_bytes((films / "shot-00.y4m").read_bytes()[:-1])
    (films / "older" / "shot-01.y4m").unlink()
    found = wedgepetal.archive("check", shots, tmp_path / "out", films=films)
    said = {line["shot"]: line for line in found.lines}
    assert said["shot-00.ogv"]["status"] == "differs" and "differs at byte" in said["shot-00.ogv"]["error"]
    assert said["older/shot-01.ogv"]["status"] == "failed" and "FileNotFoundError" in said["older/shot-01.ogv"]["error"]
    assert said["refused.ogv"]["status"] == said["older/gap.ogv"]["status"] == "faults"
    assert found.statuses["whole"] == SHOTS - 2
    with pytest.raises(ValueError, match="films"):
        wedgepetal.archive("check", shots, tmp_path / "none")


def test_a_run_that_is_done_does_nothing_again(shots, tmp_path):
    wedgepetal.archive("y4m", shots, tmp_path)
    before = {path: path.stat().st_mtime_ns for path in tmp_path.glob("y4m/**/*.y4m")}
    again = wedgepetal.archive("y4m", shots, tmp_path, jobs=1)
    assert before == {path: path.stat().st_mtime_ns for path in tmp_path.glob("y4m/**/*.y4m")}
    # What failed is tried again, and counted once.
    assert [line["shot"] for line in lines(tmp_path)].count("other.ogv") == 2
    assert len(again.lines) == 28 and again.statuses["failed"] == 1


def test_a_shot_that_changed_is_done_again(shots, tmp_path):
    folder = tmp_path / "shots"
    folder.mkdir()
    for name in ("shot-00.ogv", "shot-03.ogv"):
        (folder / name).write_bytes((shots / name).read_bytes())
    first = wedgepetal.archive("census", folder, tmp_path / "out")
    (folder / "shot-03.ogv").write_bytes((shots / "shot-00.ogv").read_bytes())
    (folder / "shot-06.ogv").write_bytes((shots / "shot-00.ogv").read_bytes())
    second = wedgepetal.archive("census", folder, tmp_path / "out")
    one = Census.of(first.lines[0]["report"])
    assert second.census == one + one + one and first.census != second.census
    (folder / "shot-00.ogv").unlink()
    assert wedgepetal.archive("census", folder, tmp_path / "out").census == one + one


def command(*words):
    return [sys.executable, "-m", "wedgepetal", "archive", *map(str, words)]


def environment():
    return {**os.environ, "PYTHONPATH": str(Path(wedgepetal.__file__).parents[1])}


def workers(pid):
    """The processes that work for a run."""
    children = Path(f"/proc/{pid}/task/{pid}/children").read_text().split()
    return [int(child) for child in children if b"spawn_main" in Path(f"/proc/{child}/cmdline").read_bytes()]


def started(shots, out, lines_wanted):
    """A run that has written so many lines."""
    run = subprocess.Popen(command("report", "--out", out, "--jobs", 2, shots), env=environment(), stdout=subprocess.DEVNULL)
    deadline = time.monotonic() + 60
    while not (out / "log.jsonl").exists() or len(lines(out)) < lines_wanted:
        assert run.poll() is None and time.monotonic() < deadline
        time.sleep(0.005)
    return run


def test_a_killed_worker_loses_nothing(shots, tmp_path):
    wanted = wedgepetal.archive("report", shots, tmp_path / "wanted", jobs=2)
    run = started(shots, tmp_path / "out", 3)
    os.kill(workers(run.pid)[0], signal.SIGKILL)
    assert run.wait(60) == 1
    names = [line["shot"] for line in lines(tmp_path / "out")]
    assert len(names) == len(set(names)) == len(wanted.lines)
    for name in ("results.jsonl", "totals.json"):
        assert (tmp_path / "wanted" / name).read_bytes() == (tmp_path / "out" / name).read_bytes()
    assert made(tmp_path / "wanted") == made(tmp_path / "out")


def test_a_run_that_is_killed_goes_on(shots, tmp_path):
    wanted = wedgepetal.archive("report", shots, tmp_path / "wanted", jobs=2)
    out = tmp_path / "out"
    for cut in (3, 9):
        run = started(shots, out, cut)
        pids = workers(run.pid)
        run.kill()
        run.wait()
        deadline = time.monotonic() + 60
        while any(Path(f"/proc/{pid}").exists() and "Z" not in Path(f"/proc/{pid}/stat").read_text().split()[2] for pid in pids):
            assert time.monotonic() < deadline
            time.sleep(0.01)
        with (out / "log.jsonl").open("ab") as file:
            file.write(b'{"shot": "cut')
        (out / "report" / "shot-21.html.1.part").touch()
    found = wedgepetal.archive("report", shots, out)
    names = [line["shot"] for line in lines(out)]
    assert len(set(names)) == len(wanted.lines) and len(names) <= len(wanted.lines) + 2  # other.ogv is tried again
    assert (tmp_path / "wanted" / "results.jsonl").read_bytes() == (out / "results.jsonl").read_bytes()
    assert made(tmp_path / "wanted") == made(out) and found.statuses == wanted.statuses


def killed_by_some(job, shot):
    """Work that some shots end the process of."""
    if Path(shot).name in KILLERS:
        os.kill(os.getpid(), signal.SIGKILL)
    return {"shot": shot, "verb": job.verb, "status": "whole", "bytes": 0, "changed": 0}


def test_a_shot_that_kills_its_process_is_named(shots, tmp_path, monkeypatch):
    monkeypatch.setattr("wedgepetal._engines.do", killed_by_some)
    found = wedgepetal.archive("census", shots, tmp_path, jobs=2)
    said = {line["shot"]: line["status"] for line in found.lines}
    assert len(said) == len(lines(tmp_path)) == 28
    assert {Path(shot).name for shot, status in said.items() if status == "died"} == set(KILLERS)


def test_what_cannot_be_written_is_named(shots, tmp_path):
    (tmp_path / "y4m" / "shot-00.y4m").mkdir(parents=True)
    found = wedgepetal.archive("y4m", shots, tmp_path)
    said = {line["shot"]: line for line in found.lines}
    assert said["shot-00.ogv"]["status"] == "failed" and "IsADirectoryError" in said["shot-00.ogv"]["error"]
    assert found.statuses["whole"] == SHOTS - 1 and not list(tmp_path.glob("**/*.part"))


def test_two_runs_do_not_mix(shots, tmp_path):
    wedgepetal.archive("census", shots, tmp_path)
    with pytest.raises(wedgepetal.OtherRun, match="another run"):
        wedgepetal.archive("tiles", shots, tmp_path)
    from wedgepetal._log import log, read_plan

    wedgepetal.archive("tiles", shots, tmp_path / "tiles")
    with log(read_plan(tmp_path / "tiles")[0]), pytest.raises(wedgepetal.OtherRun, match="at work"):
        wedgepetal.archive("tiles", shots, tmp_path / "tiles")


def test_tasks(shots, tmp_path, capsys):
    """A plan in tasks, as a cluster does it: one is done twice, and one has no shots."""
    wanted = wedgepetal.archive("tiles", shots, tmp_path / "wanted")
    out = str(tmp_path / "out")
    assert main(["archive", "tiles", "--out", out, "--plan", str(shots)]) == 0
    assert capsys.readouterr().out == "28\n"
    for task in (0, 2, 2):
        assert main(["archive", "tiles", "--out", out, "--task", str(task), "--tasks", "3", "--jobs", "1"]) == 0
    assert main(["archive", "tiles", "--out", out, "--collect"]) == 1
    assert "not done yet: 9" in capsys.readouterr().out
    for task in (1, 29):
        assert main(["archive", "tiles", "--out", out, "--task", str(task), "--tasks", "3" if task == 1 else "30"]) == 0
    assert main(["archive", "tiles", "--out", out, "--collect", "--json"]) == 1
    assert json.loads(capsys.readouterr().out) == wanted.fields()
    assert (tmp_path / "wanted" / "results.jsonl").read_bytes() == (tmp_path / "out" / "results.jsonl").read_bytes()


def test_wrong_words(shots, tmp_path, capsys):
    out = str(tmp_path / "out")
    for words in (["archive", "census", "--out", out], ["archive", "census", "--out", out, "--task", "1"],
                  ["archive", "census", "--out", out, "--collect"], ["archive", "census", "--out", out, "/none/such"],
                  ["archive", "check", "--out", out, str(shots)], ["report", "/none/such.ogv"], ["other"],
                  ["archive", "census", "--out", out, "--tile", "9", "--task", "3", "--tasks", "2"]):
        assert main(words) == 2
        assert capsys.readouterr().err
    assert main(["--version"]) == 0 and main([]) == 0
    with pytest.raises(SystemExit):
        main(["archive", "other", "--out", out, str(shots)])


def test_the_command(shots, tmp_path):
    run = subprocess.run(command("census", shots, "--jobs", 2, "--out", tmp_path / "out", "--progress"), env=environment(),
                         capture_output=True, text=True)
    assert run.returncode == 1
    first, *rest, last = run.stdout.splitlines()
    assert first.startswith("28 shots (failed: 1, faults: 3, whole: 24), ")
    assert "  other.ogv: failed: NoRecording: no Ogg file and no packet file" in rest
    assert last == f"{tmp_path}/out/index.html has the rest"
    assert run.stderr.replace("\x1b[K", "").splitlines()[-1] == "28 of 28 shots, 100 %, 0 s left, not whole: 4"
    run = subprocess.run(command("census", shots / "shot-00.ogv", "--out", tmp_path / "one"), env=environment())
    assert run.returncode == 0
