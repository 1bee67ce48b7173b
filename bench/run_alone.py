"""bench/run_alone.py INPUT OUTPUT PROGRAM WORD..: runs a program on a file and prints its user time and its system time in
seconds, its peak memory in bytes, and its status. What it writes goes to OUTPUT. A small process of its own, since a program is
told to have had at least the memory of what it was started from.
"""

import os
import sys

given, output, program, *words = sys.argv[1:]
child = os.fork()
if child == 0:
    os.dup2(os.open(given, os.O_RDONLY), 0)
    os.dup2(os.open(output, os.O_WRONLY), 1)
    os.execv(program, [program, *words])
_, status, used = os.wait4(child, 0)
print(used.ru_utime, used.ru_stime, used.ru_maxrss * 1024, os.waitstatus_to_exitcode(status))
