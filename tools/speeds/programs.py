"""The three programs that do the same calls, run by turns, and what they tell."""
import collections
import os
import subprocess
import sys

HERE = os.path.dirname(os.path.abspath(__file__))
ROOT = os.path.dirname(os.path.dirname(HERE))
PROGRAM = os.path.join(ROOT, 'crates', 'speeds')
CPYTHON = [sys.executable, os.path.join(HERE, 'cpython.py')]
sys.path.insert(0, os.path.join(os.path.dirname(HERE), 'crate_answers'))
import bodies

NAMES = ['port', 'crate', 'CPython']
# a call, the file with its sheet, and the turns that a program does in a round
Job = collections.namedtuple('Job', 'row sheet turns')
# the call's number, and the least and the median time of a turn in nanoseconds
Told = collections.namedtuple('Told', 'number least median')


def built(crate):
    """The command of each program; the port's is proved and built first where that is still to be done."""
    print('proving and building the program speeds, which takes some minutes the first time', file=sys.stderr)
    with open(os.path.join(PROGRAM, 'stdin')) as sheet:
        done = subprocess.run(['rt', 'run'], cwd=PROGRAM, stdin=sheet, capture_output=True, text=True, errors='replace')
    if done.returncode:
        raise SystemExit(done.stdout + done.stderr)
    return {'port': [os.path.join(PROGRAM, 'out', 'speeds')],
            'crate': [bodies.build(crate, os.path.join(HERE, 'driver.rs'))],
            'CPython': CPYTHON}


def short(row):
    """A row for people: of a long word only its length."""
    return ' '.join(word if len(word) < 16 else f'({len(word)} bytes)' for word in row.split(' '))


def run(command, job):
    with open(job.sheet) as sheet:
        done = subprocess.run([*command, str(job.turns), job.row], stdin=sheet, capture_output=True, text=True)
    if done.returncode:
        raise SystemExit(f'{command[-1]}: {short(job.row)}: {done.stderr}')
    number, least, median = done.stdout.split(' ')[:1] + done.stderr.split(' ')[:2]
    return Told(int(number), int(least), int(median))


def measure(commands, jobs, rounds):
    """For each job what each program told, a list by rounds. Each round begins with another program."""
    told = [{name: [] for name in NAMES} for _ in jobs]
    for r in range(rounds):
        print(f'round {r + 1} of {rounds}', file=sys.stderr)
        first = r % len(NAMES)
        for job, of_job in zip(jobs, told):
            for name in NAMES[first:] + NAMES[:first]:
                of_job[name].append(run(commands[name], job))
    return told


def differing(jobs, told):
    """A line for each job whose numbers are not all the same."""
    for job, of_job in zip(jobs, told):
        numbers = {name: sorted({one.number for one in of_job[name]}) for name in NAMES}
        if len(set(sum(numbers.values(), []))) > 1:
            yield f'{short(job.row)} on {os.path.basename(job.sheet)}: {numbers}'
