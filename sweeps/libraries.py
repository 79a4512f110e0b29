"""The libraries that are loaded before a program, to count what it does and to make it fail."""
import os
import subprocess
from pathlib import Path


def library(name, folder):
    built = Path(folder, name).with_suffix(".so")
    source = Path(__file__).with_name(name)
    subprocess.run([os.environ.get("CC", "cc"), "-O2", "-shared", "-fPIC", "-o", built, source], check=True)
    return built
