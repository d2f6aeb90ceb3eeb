#!/usr/bin/env bash
# Measures what packaging/front costs: the quickest of 400 starts of it, less the quickest of 400 of the program alone, in
# microseconds. The program is true(1), so that nothing else counts.
set -euo pipefail
front=$(cd "$(dirname "$0")/.." && pwd)/packaging/front
STREAMBOX_PROGRAM=$(type -P true) python3 - "$front" << 'PYTHON'
import os, sys, time
def quickest(path, count=400):
    times = []
    for _ in range(count):
        begin = time.perf_counter()
        os.waitpid(os.posix_spawn(path, [path, "sum", "10"], os.environ), 0)
        times.append(time.perf_counter() - begin)
    return min(times)
alone = quickest(os.environ["STREAMBOX_PROGRAM"])
print(int((quickest(sys.argv[1]) - alone) * 1e6))
PYTHON
