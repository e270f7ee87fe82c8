// dlib's max_cost_assignment as a child process of the benchmark, on the costs with their signs changed. For each matrix it reads the side,
// the rounds and the costs, 4 bytes each, the lowest first, and answers a line: the total, then nanoseconds a round. Its matrix of 64-bit
// numbers is made before the clock starts.
#include <dlib/optimization/max_cost_assignment.h>
#include <dlib/revision.h>

#include <chrono>
#include <cstdint>
#include <cstdio>
#include <vector>

int main() {
    std::printf("dlib %d.%d\n", DLIB_MAJOR_VERSION, DLIB_MINOR_VERSION);
    std::fflush(stdout);
    uint32_t head[2];
    while (std::fread(head, 4, 2, stdin) == 2) {
        const long n = head[0];
        std::vector<int32_t> costs(n * n);
        if (std::fread(costs.data(), 4, costs.size(), stdin) != costs.size()) return 1;
        dlib::matrix<int64_t> gains(n, n);
        for (long i = 0; i < n; i++)
            for (long j = 0; j < n; j++) gains(i, j) = -static_cast<int64_t>(costs[i * n + j]);
        std::vector<long> columns;
        std::vector<long long> times;
        for (uint32_t round = 0; round < head[1]; round++) {
            const auto start = std::chrono::steady_clock::now();
            columns = dlib::max_cost_assignment(gains);
            times.push_back(std::chrono::nanoseconds(std::chrono::steady_clock::now() - start).count());
        }
        long long total = 0;
        for (long i = 0; i < n; i++) total += costs[i * n + columns[i]];
        std::printf("%lld", total);
        for (const long long time : times) std::printf(" %lld", time);
        std::printf("\n");
        std::fflush(stdout);
    }
}
