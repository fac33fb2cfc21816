"""An archive as a Slurm job array: the plan in as many tasks as are wanted, and a job behind it that collects."""
from __future__ import annotations

import subprocess
import sys
from pathlib import Path
from typing import Dict, Optional

from ._jobs import Job

SCRIPT = Path(__file__).with_name("slurm-array")
"""What each task of the array runs."""
SHOTS_A_TASK = 100
MOST_TASKS = 1000
"""Slurm's own limit, if it is not set higher, is 1001."""


def submit(job: Job, shots: Dict[str, int], tasks: Optional[int]) -> str:
    """Hands a planned run to Slurm: an array of tasks, and a job that collects when all have ended. Gives the number of the
    latter. What sbatch is to be told stands in its variables: SBATCH_PARTITION and so on."""
    count = tasks or min(-(-len(shots) // SHOTS_A_TASK), MOST_TASKS) or 1
    logs = f"--output={Path(job.out) / 'slurm-%A_%a.txt'}"
    array = _sbatch(f"--array=0-{count - 1}", logs, str(SCRIPT), sys.executable, job.verb, job.out)
    collect = f"'{sys.executable}' -m wedgepetal archive {job.verb} --out '{job.out}' --collect"
    return _sbatch(f"--dependency=afterany:{array}", "--job-name=wedgepetal-collect", f"--output={Path(job.out) / 'slurm.txt'}",
                   f"--wrap={collect}")


def _sbatch(*words: str) -> str:
    """Hands a job over. Gives its number."""
    run = subprocess.run(["sbatch", "--parsable", *words], stdout=subprocess.PIPE, check=False, text=True)
    if run.returncode:
        raise OSError(f"sbatch ended with status {run.returncode}")
    return run.stdout.split(";")[0].strip()
