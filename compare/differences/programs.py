"""Python and `namecheck`, run."""

import subprocess
import sys


def run(command: list[str], given: bytes) -> subprocess.CompletedProcess[bytes]:
    return subprocess.run(command, input=given, stdout=subprocess.PIPE, stderr=subprocess.PIPE,
                          timeout=20)


def python_ends(script: str) -> str:
    """How Python ends a script: no error, or the name of its error."""
    done = run([sys.executable, '-I', '-S', '-'], script.encode('utf-8'))
    if done.returncode == 0:
        return 'no error'
    return done.stderr.decode('utf-8').splitlines()[-1].split(':')[0]


def namecheck_prints(namecheck: str, text: bytes) -> bytes:
    return run([namecheck], text).stdout
