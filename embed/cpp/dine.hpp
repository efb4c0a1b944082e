// The dining arbiter for C++17: an arbiter that closes itself, and a broker whose meals wait for their turn.
#pragma once

#include "../dine.h"

#include <chrono>
#include <condition_variable>
#include <cstddef>
#include <cstdint>
#include <mutex>
#include <optional>
#include <stdexcept>
#include <string>
#include <utility>
#include <vector>

namespace dine_arbiter {

using Task = dine_task;

// Why a call was not carried out: a dine_answer, above 0.
class Refused : public std::runtime_error {
public:
    explicit Refused(std::uint32_t number)
        : std::runtime_error("the arbiter answered " + std::to_string(number)), number(number) {}
    const std::uint32_t number;
};

// An arbiter, for one thread at a time. It can be moved, and not copied. One that was moved from refuses with DINE_BAD_HANDLE.
class Arbiter {
public:
    Arbiter(std::uint32_t tasks, std::uint32_t conflicts) { accepted(dine_start(&handle_, tasks, conflicts)); }
    Arbiter(Arbiter &&other) noexcept : handle_(std::exchange(other.handle_, dine DINE_CLOSED)) {}
    Arbiter &operator=(Arbiter &&other) noexcept
    {
        std::swap(handle_, other.handle_);
        return *this;
    }
    ~Arbiter() { dine_end(&handle_); }

    Task join()
    {
        Task newcomer{};
        accepted(dine_join(&handle_, &newcomer));
        return newcomer;
    }
    void leave(Task task) { accepted(dine_leave(&handle_, task)); }
    void conflict(Task first, Task second) { accepted(dine_conflict(&handle_, first, second)); }
    void separate(Task first, Task second) { accepted(dine_separate(&handle_, first, second)); }
    void hungry(Task task) { accepted(dine_hungry(&handle_, task)); }
    void finish(Task task) { accepted(dine_finish(&handle_, task)); }
    void withdraw(Task task) { accepted(dine_withdraw(&handle_, task)); }
    // Whether the task begins to eat; false where it has to wait.
    bool begin(Task task)
    {
        const std::uint32_t answer = dine_begin(&handle_, task);
        return answer != DINE_NOT_YET && accepted(answer);
    }

    // A dine_task_state.
    std::uint32_t state(Task task) { return dine_state_of(&handle_, task); }
    bool is_ready(Task task) { return dine_may_begin(&handle_, task); }
    std::optional<Task> next_ready()
    {
        Task next{};
        return dine_who_is_next(&handle_, &next) ? std::optional<Task>(next) : std::nullopt;
    }

    // The tasks that a task is in conflict with, in the order in which the conflicts were declared.
    std::vector<Task> neighbours(Task task)
    {
        return listed([&](Task *found, std::size_t room, std::size_t *count) {
            return dine_neighbours_of(&handle_, task, found, room, count);
        });
    }
    // Those of these for which a hungry task waits: who eats, and who is hungry with an earlier last meal.
    std::vector<Task> blockers(Task task)
    {
        return listed([&](Task *found, std::size_t room, std::size_t *count) {
            return dine_blockers_of(&handle_, task, found, room, count);
        });
    }
    // All ready tasks, the one with the earliest last meal first.
    std::vector<Task> ready()
    {
        return listed([&](Task *found, std::size_t room, std::size_t *count) {
            return dine_who_is_ready(&handle_, found, room, count);
        });
    }
    // Whether one more conflict has room.
    bool has_room() { return dine_is_open(&handle_) && dine_has_room(&handle_); }

private:
    static bool accepted(std::uint32_t answer) { return answer == DINE_DONE ? true : throw Refused(answer); }

    // The tasks that a call lists, which is asked first how many there are.
    template <typename List> static std::vector<Task> listed(List list)
    {
        std::size_t count = 0;
        std::vector<Task> found;
        std::uint32_t answer = list(nullptr, 0, &count);
        if (answer == DINE_NO_SPACE) {
            found.resize(count);
            answer = list(found.data(), found.size(), &count);
        }
        accepted(answer);
        return found;
    }

    dine handle_ = DINE_CLOSED;
};

// An arbiter that threads share. `meal` waits for the task's turn, and the task eats as long as what it returns lives.
class Broker {
public:
    Broker(std::uint32_t tasks, std::uint32_t conflicts) : arbiter_(tasks, conflicts) {}

    class Meal {
    public:
        Meal(Meal &&other) noexcept : broker_(std::exchange(other.broker_, nullptr)), task_(other.task_) {}
        ~Meal()
        {
            if (broker_)
                broker_->change([this](Arbiter &arbiter) { arbiter.finish(task_); });
        }

    private:
        friend class Broker;
        Meal(Broker *broker, Task task) : broker_(broker), task_(task) {}
        Broker *broker_;
        Task task_;
    };

    Task join() { return change([](Arbiter &arbiter) { return arbiter.join(); }); }
    void leave(Task task) { change([=](Arbiter &arbiter) { arbiter.leave(task); }); }
    void conflict(Task first, Task second) { change([=](Arbiter &arbiter) { arbiter.conflict(first, second); }); }
    void separate(Task first, Task second) { change([=](Arbiter &arbiter) { arbiter.separate(first, second); }); }

    [[nodiscard]] Meal meal(Task task)
    {
        std::unique_lock<std::mutex> locked(lock_);
        arbiter_.hungry(task);
        while (!arbiter_.begin(task))
            turned_.wait(locked);
        return Meal(this, task);
    }

    // The same, but the wait ends at a time: then there is no meal, and the task thinks again.
    [[nodiscard]] std::optional<Meal> meal_until(Task task, std::chrono::steady_clock::time_point end)
    {
        std::unique_lock<std::mutex> locked(lock_);
        arbiter_.hungry(task);
        if (turned_.wait_until(locked, end, [&] { return arbiter_.begin(task); }))
            return Meal(this, task);
        arbiter_.withdraw(task);
        turned_.notify_all();
        return std::nullopt;
    }

private:
    // Does something under the lock after which others may have their turn.
    template <typename Change> auto change(Change made) -> decltype(made(std::declval<Arbiter &>()))
    {
        std::lock_guard<std::mutex> locked(lock_);
        turned_.notify_all();
        return made(arbiter_);
    }

    std::mutex lock_;
    std::condition_variable turned_;
    Arbiter arbiter_;
};

} // namespace dine_arbiter
