"""How much memory a program takes at most, by a small process between that starts it and looks at it when it has ended."""
import os
import sys

# Its own memory is small, since that of the one that starts a program counts as the program's. The program ends with it.
STARTER = '''
import ctypes, resource, subprocess, sys
ends_too = ctypes.CDLL(None).prctl
done = subprocess.run(sys.argv[2:], close_fds=False, preexec_fn=lambda: ends_too(1, 9))
with open(sys.argv[1], 'w') as report:
    report.write(str(resource.getrusage(resource.RUSAGE_CHILDREN).ru_maxrss * 1024))
sys.exit(done.returncode if done.returncode >= 0 else 128 - done.returncode)
'''


class Peak:
    """The greatest of the programs that the words `before` start; `last` is the last one's, in bytes."""

    def __init__(self, folder):
        self.report = os.path.join(folder, 'peak')
        self.before = [sys.executable, '-S', '-E', '-c', STARTER, self.report]
        self.most = 0

    def last(self):
        with open(self.report) as report:
            peak = int(report.read())
        os.remove(self.report)
        self.most = max(self.most, peak)
        return peak
