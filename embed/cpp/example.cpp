// Two jobs that must not run at the same time, each in a thread that waits for its turn.
#include "dine.hpp"

#include <cstdio>
#include <thread>

int main()
{
    dine_arbiter::Broker broker(64, 256);
    const auto print = broker.join();
    const auto scan = broker.join();
    broker.conflict(print, scan);

    std::thread scanner([&] {
        const auto meal = broker.meal(scan);
        std::puts("a job runs alone");
    });
    {
        const auto meal = broker.meal(print);
        std::puts("a job runs alone");
    }
    scanner.join();
}
