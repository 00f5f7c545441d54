"""Runs dpe over a workload."""

from __future__ import annotations

import json
import os
import subprocess
from pathlib import Path
from typing import Any

from .refusals import Refused

PROGRAM = Path(__file__).resolve().parents[2] / "bin" / "dpe"


def plan_workload(workload: dict[str, Any], model: str) -> list[dict[str, Any]]:
    """The entries of dpe's report of the workload under a model. The variable DPE may name another program."""
    program = os.environ.get("DPE", str(PROGRAM))
    words = [program, "--workers", "1", "--format", "json", "--model", model]
    try:
        done = subprocess.run(words, input=json.dumps(workload).encode(), stdout=subprocess.PIPE, check=False)
    except OSError as error:
        raise Refused(f"{program}: {error.strerror}") from error
    if done.returncode not in (0, 1):
        line = done.stdout.decode(errors="replace").strip()
        raise Refused(f"dpe ended with status {done.returncode}" + (f": {line}" if line else ""))
    entries = json.loads(done.stdout)["queries"]
    if "refusal" in entries[0]:
        raise Refused(f"dpe refuses the workload: {entries[0]['refusal']}")
    return entries
