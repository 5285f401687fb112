"""Which program the tools run, and the client that starts it: `import proved` first, then `gaikyrumo`."""
import os
import subprocess
import sys

ROOT = os.path.dirname(os.path.dirname(os.path.realpath(__file__)))
sys.path.insert(0, os.path.join(ROOT, 'clients/python'))


def program_in(words):
    """The program to run: takes `--program PATH` out of a tool's words. Without it, it is the proved one of this
    repository, which `./desk` makes where it isn't there. `--help` tells how the tool is called, and ends it."""
    if '--help' in words:
        print(sys.modules['__main__'].__doc__.strip())
        sys.exit(0)
    if '--program' not in words:
        return proved_program()
    at = words.index('--program')
    if at + 1 == len(words):
        sys.exit('--program wants a path')
    path = words[at + 1]
    del words[at:at + 2]
    return os.path.realpath(path)


def proved_program():
    """The path of the proved program; what is done to make it is told on standard error."""
    done = subprocess.run([os.path.join(ROOT, 'desk'), '--proved'], stdin=subprocess.DEVNULL, stdout=subprocess.PIPE, text=True)
    if done.returncode:
        sys.exit(done.returncode)
    return done.stdout.rstrip('\n')
