// The wrapper for C++: each call once, and eight threads that eat by a broker.
#include "dine.hpp"

#include <array>
#include <atomic>
#include <chrono>
#include <cstdio>
#include <cstdlib>
#include <thread>
#include <vector>

using dine_arbiter::Arbiter;
using dine_arbiter::Broker;
using dine_arbiter::Refused;

static unsigned checks;

static void check(bool holds, const char *what)
{
    checks++;
    if (!holds) {
        std::fprintf(stderr, "%s\n", what);
        std::exit(1);
    }
}

template <typename Call> static std::uint32_t refusal_of(Call call)
{
    try {
        call();
    } catch (const Refused &refused) {
        return refused.number;
    }
    return DINE_DONE;
}

static void answers_by_its_calls()
{
    check(refusal_of([] { Arbiter(0, 1); }) == DINE_OUT_OF_RANGE, "limits out of range are refused");
    Arbiter first(3, 1);
    const auto a = first.join();
    const auto b = first.join();
    check(first.has_room() && first.neighbours(a).empty(), "nobody is in conflict yet");
    first.conflict(a, b);
    check(!first.has_room() && first.neighbours(a).size() == 1 && first.neighbours(a)[0].slot == b.slot, "a and b are");
    Arbiter arbiter(std::move(first));
    check(refusal_of([&] { first.join(); }) == DINE_BAD_HANDLE, "what was moved from is closed");
    check(refusal_of([&] { arbiter.conflict(b, a); }) == DINE_ALREADY, "a conflict stands once");
    arbiter.hungry(b);
    check(arbiter.is_ready(b) && arbiter.next_ready()->slot == b.slot, "b is ready");
    check(arbiter.begin(b) && arbiter.state(b) == DINE_IS_EATING, "b eats");
    arbiter.hungry(a);
    check(!arbiter.begin(a) && !arbiter.next_ready() && arbiter.ready().empty(), "a waits");
    check(arbiter.blockers(a).size() == 1 && arbiter.blockers(a)[0].slot == b.slot && arbiter.blockers(b).empty(), "a waits for b");
    arbiter.finish(b);
    check(arbiter.ready().size() == 1 && arbiter.ready()[0].slot == a.slot && arbiter.blockers(a).empty(), "a may begin then");
    arbiter.withdraw(a);
    arbiter.separate(a, b);
    arbiter.leave(a);
    check(arbiter.state(a) == DINE_IS_ABSENT, "a is gone");
    check(refusal_of([&] { arbiter.neighbours(a); }) == DINE_UNKNOWN, "who is gone has no neighbours");
    check(refusal_of([&] { arbiter.blockers(a); }) == DINE_UNKNOWN, "who is gone waits for nobody");
    arbiter = Arbiter(1, 1);
    check(arbiter.state(b) == DINE_IS_ABSENT, "another arbiter is in its place");
}

static void lets_eight_threads_eat()
{
    constexpr int threads = 8, meals = 1000;
    Broker broker(threads, threads);
    std::vector<dine_task> tasks;
    for (int i = 0; i < threads; i++)
        tasks.push_back(broker.join());
    for (int i = 0; i < threads; i++)
        broker.conflict(tasks[i], tasks[(i + 1) % threads]);
    std::array<std::atomic<int>, threads> eats{};
    std::atomic<int> clashes{0}, eaten{0};
    std::vector<std::thread> workers;
    for (int i = 0; i < threads; i++)
        workers.emplace_back([&, i] {
            for (int k = 0; k < meals; k++) {
                const auto meal = broker.meal(tasks[i]);
                eats[i] = 1;
                clashes += eats[(i + 1) % threads] + eats[(i + threads - 1) % threads];
                eats[i] = 0;
                eaten++;
            }
        });
    for (auto &worker : workers)
        worker.join();
    check(clashes == 0, "no two neighbours eat at the same time");
    check(eaten == threads * meals, "each thread has its meals");
    check(refusal_of([&] { auto meal = broker.meal({4000, 0}); }) == DINE_UNKNOWN, "a stranger has no meal");
}

static void ends_a_wait_in_time()
{
    Broker broker(2, 1);
    const auto a = broker.join(), b = broker.join();
    broker.conflict(a, b);
    const auto soon = [] { return std::chrono::steady_clock::now() + std::chrono::milliseconds(20); };
    {
        const auto meal = broker.meal(a);
        check(!broker.meal_until(b, soon()), "b waits too long");
        check(!broker.meal_until(b, soon()), "and thinks again");
    }
    check(broker.meal_until(b, soon()).has_value(), "b eats once a has finished");
    const auto meal = broker.meal(a);
    check(refusal_of([&] { auto second = broker.meal_until(a, soon()); }) == DINE_WRONG_STATE, "a task has one meal at a time");
}

int main()
{
    answers_by_its_calls();
    lets_eight_threads_eat();
    ends_a_wait_in_time();
    std::printf("%u checks hold\n", checks);
}
