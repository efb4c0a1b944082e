// A scheduler's tick: of some jobs that must not run together, which start now, at most two at once?
#include "dine.hpp"

#include <array>
#include <cstdio>
#include <vector>

using dine_arbiter::Arbiter;
using dine_arbiter::Task;

// Starts each job that may run now, as long as fewer than `most` run.
static void tick(Arbiter &arbiter, std::vector<Task> &running, std::size_t most)
{
    while (running.size() < most) {
        const auto next = arbiter.next_ready();
        if (!next)
            return;
        arbiter.begin(*next);
        running.push_back(*next);
    }
}

int main()
{
    const std::array names = { "scan", "fax", "copy", "print" };
    std::array left = { 2, 2, 2, 2 };
    Arbiter arbiter(4, 1);
    std::vector<Task> jobs, running;
    for (std::size_t job = 0; job < names.size(); job++)
        jobs.push_back(arbiter.join());
    arbiter.conflict(jobs[0], jobs[1]);
    for (const Task job : jobs)
        arbiter.hungry(job);

    for (int number = 1; tick(arbiter, running, 2), !running.empty(); number++) {
        std::printf("tick %d:", number);
        // Here each job ends before the next tick.
        for (const Task job : running) {
            std::printf(" %s", names[job.slot]);
            arbiter.finish(job);
            if (--left[job.slot] > 0)
                arbiter.hungry(job);
        }
        std::puts("");
        running.clear();
    }
}
