"""Test programs of crates: each test frees what it took."""
import subprocess


def run_tests(sweep, tests):
    """Each test of the program passes, and what was allocated in it is freed; some test allocates."""
    listed = subprocess.run([tests, "--list"], capture_output=True, text=True, check=True).stdout.splitlines()
    names = [line.removesuffix(": test") for line in listed if line.endswith(": test")]
    allocations = 0
    for name in names:
        ran = sweep.run(b"", [name], tests)
        left = ran.counts.get("blocks_left"), ran.counts.get("bytes_left")
        allocations += ran.counts["allocations"]
        sweep.claim(f"{tests.name}: {name}: blocks and bytes left: {left}", ran.status == 0 and left == (0, 0))
    sweep.claim(f"{tests.name}: its tests take memory", allocations > 0)
