"""The page for the authors of daemons: its client is run."""
import os
import re
import subprocess
import sys
import tempfile
from pathlib import Path

PAGE = Path(__file__).resolve().parents[1] / "docs" / "DAEMON.md"


def programs():
    """The programs in Python that the page shows, the one over the package first, each with what it prints."""
    return re.findall(r"^```python\n([^`]*)```\n\nIt prints\n\n```\n([^`]*)```", PAGE.read_text(), re.M)


def run_its_client(sweep):
    """The client drives the program, and prints what the page shows behind it."""
    _, (client, shown) = programs()
    folder = Path(tempfile.mkdtemp(dir=sweep.folder))
    Path(folder, "routesim").symlink_to(sweep.program)
    command = [sys.executable, "-c", client]
    ran = subprocess.run(command, cwd=folder, capture_output=True, text=True, timeout=60, env=os.environ)
    sweep.claim("the client of the page for daemons", (ran.stdout, ran.stderr, ran.returncode) == (shown, "", 0))
