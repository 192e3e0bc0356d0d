"""Times a program, and another one beside it, by turns: by_turns.py PROGRAM [OTHER].

Works come from standard input, a JSON object a line: `name`, `words`, and `input`, the path of a file or null. Each is done five times
by each program, one after the other, and the least wall clock counts. A program has to end with status 0, and both have to write the same
bytes. Prints a line for each work: seconds, the most memory (MiB), and where there is another program its seconds and the ratio. A program
begins as a copy of this script, so less memory than the script has, some 14 MiB, is not told; outputs go to files, so that the script does
not grow by them.
"""
import filecmp
import json
import os
import subprocess
import sys
import tempfile
import time

TURNS = 5


def done(program, words, path, output):
    """The wall clock (s) and the most memory (MiB) of one call, which writes into the file `output`."""
    with open(path or os.devnull, 'rb') as source, open(output, 'wb') as sink:
        start = time.monotonic()
        child = subprocess.Popen([program, *words], stdin=source, stdout=sink)
        _, status, usage = os.wait4(child.pid, 0)
        seconds = time.monotonic() - start
    if status != 0:
        sys.exit(f'measure: {program} {" ".join(words)} ended with {os.waitstatus_to_exitcode(status)}')
    return seconds, usage.ru_maxrss / 1024


def measure(programs, folder):
    outputs = [os.path.join(folder, str(k)) for k in range(len(programs))]
    for line in sys.stdin:
        work = json.loads(line)
        least = [None] * len(programs)
        memory = 0
        for _ in range(TURNS):
            for k, program in enumerate(programs):
                seconds, most = done(program, work['words'], work['input'], outputs[k])
                least[k] = seconds if least[k] is None else min(least[k], seconds)
                memory = max(memory, most) if k == 0 else memory
            if not all(filecmp.cmp(outputs[0], output, shallow=False) for output in outputs):
                sys.exit(f'measure: {work["name"]}: the programs do not write the same')
        shown = f'{work["name"]:52} {least[0]:8.4f} s {memory:6.1f} MiB'
        if len(programs) > 1:
            shown += f'   other {least[1]:8.4f} s   {least[0] / least[1]:4.2f} times'
        print(shown, flush=True)


with tempfile.TemporaryDirectory() as made:
    measure(sys.argv[1:], made)
