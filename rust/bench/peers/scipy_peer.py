# scipy's linear_sum_assignment as a child process of the benchmark. It says its version, or nothing where scipy is missing. For each matrix
# it reads the side, the rounds and the costs, 4 bytes each, the lowest first, and answers a line: the total, then nanoseconds a round.
# The matrix of f64 is made before the clock starts, as the crate's is.
import sys
import time

try:
    import numpy
    import scipy
    from scipy.optimize import linear_sum_assignment
except ImportError:
    sys.exit(0)

print("scipy", scipy.__version__, flush=True)
while True:
    head = sys.stdin.buffer.read(8)
    if len(head) < 8:
        break
    n, rounds = numpy.frombuffer(head, dtype="<u4").tolist()
    costs = numpy.frombuffer(sys.stdin.buffer.read(4 * n * n), dtype="<i4").reshape(n, n).astype(numpy.float64)
    times = []
    for _ in range(rounds):
        start = time.perf_counter_ns()
        rows, columns = linear_sum_assignment(costs)
        times.append(time.perf_counter_ns() - start)
    print(int(costs[rows, columns].sum()), *times, flush=True)
