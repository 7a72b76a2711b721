"""The programs that are run, and what is counted."""
import collections
import os
import pathlib
import subprocess
import sys

ROOT = pathlib.Path(__file__).resolve().parent.parent.parent
sys.path.insert(0, str(ROOT / 'tests'))

from second import answers as oracle

MESH = os.environ.get('MESH', str(ROOT / 'tools/mesh/target/release/mesh'))

Answer = collections.namedtuple('Answer', 'status out errors')


def mesh(*arguments, data=b''):
    done = subprocess.run([MESH, *map(str, arguments)], input=data, capture_output=True, timeout=20, close_fds=False)
    return Answer(done.returncode, done.stdout, done.stderr.decode())


def csv(numbers):
    return ','.join(map(str, numbers))


class Count:
    """A line for each case, and the sums at the end."""

    def __init__(self):
        self.passed = self.failed = 0

    def case(self, name, wrong):
        """A case with what is wrong about it, nothing if it passes."""
        if wrong:
            self.failed += 1
            print(f'FAILED: {name}: {wrong[0]}' + (f' (and {len(wrong) - 1} more)' if len(wrong) > 1 else ''))
        else:
            self.passed += 1
            print(f'ok: {name}')

    def end(self):
        print(f'{self.passed} passed, {self.failed} failed')
        raise SystemExit(self.failed > 0)
