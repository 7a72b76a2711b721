"""The second program, for tests in Python: its answers to lines of its protocol (reference/PROTOCOL.md), at the level that has landed, as
tests/expected.rs has it. ORACLE in the environment names another binary than the one that is built here."""
import os
import pathlib
import re
import subprocess

ROOT = pathlib.Path(__file__).resolve().parent.parent
ORACLE = os.environ.get('ORACLE', str(ROOT / 'reference/target/release/oracle'))
LEVEL = re.search(r'LEVEL: Level = Level\((\d+)\)', (ROOT / 'tests/expected.rs').read_text())[1]


def answers(lines):
    """An answer for each line."""
    text = ''.join(f'{line}\n' for line in [f'level {LEVEL}', *lines])
    done = subprocess.run([ORACLE, 'calls02'], input=text, capture_output=True, text=True, check=True)
    return done.stdout.splitlines()[1:]
