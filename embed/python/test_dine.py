"""The package: each call once, what is refused, eight threads that eat by a broker, and who waits for whom."""
import gc
import itertools
import random
import threading
import unittest

import dine
from dine import Answer, Arbiter, Broker, Call, Refused, State, Task


class Calls(unittest.TestCase):
    def refused(self, answer, call, *words):
        with self.assertRaises(Refused) as raised:
            call(*words)
        self.assertIs(raised.exception.answer, answer)

    def test_each_call(self):
        with Arbiter(3, 1) as arbiter:
            a, b, c = arbiter.join(), arbiter.join(), arbiter.join()
            self.assertEqual((a, b, c), (Task(0, 0), Task(1, 1), Task(2, 2)))
            self.assertEqual(arbiter.limits(), (3, 1))
            self.assertTrue(arbiter.has_room())
            arbiter.conflict(a, b)
            self.assertFalse(arbiter.has_room())
            self.assertEqual((arbiter.neighbours(a), arbiter.neighbours(c)), ([b], []))
            arbiter.hungry(b)
            self.assertEqual((arbiter.is_ready(b), arbiter.next_ready()), (True, b))
            self.assertIs(arbiter.ask(Call.BEGIN, b), Answer.DONE)
            self.assertTrue(arbiter.begin(b))
            self.assertIs(arbiter.state(b), State.EATING)
            arbiter.hungry(a)
            self.assertFalse(arbiter.begin(a))
            self.assertIsNone(arbiter.next_ready())
            arbiter.hungry(c)
            self.assertEqual((arbiter.blockers(a), arbiter.blockers(b), arbiter.ready()), ([b], [], [c]))
            arbiter.finish(b)
            self.assertEqual((arbiter.clock(), arbiter.messages() <= 1), (4, True))
            self.assertEqual((arbiter.blockers(a), arbiter.ready()), ([], [a, c]))
            arbiter.withdraw(a)
            arbiter.separate(b, a)
            arbiter.leave(a)
            self.assertIs(arbiter.state(a), State.ABSENT)

    def test_refusals(self):
        for limits in ((0, 1), (4097, 1), (1, 0), (1, 65536), (-1, 1), (1 << 32, 1), (1, (1 << 32) + 1)):
            self.refused(Answer.OUT_OF_RANGE, Arbiter, *limits)
        arbiter = Arbiter(2, 1)
        a, b = arbiter.join(), arbiter.join()
        self.refused(Answer.FULL, arbiter.join)
        self.refused(Answer.UNKNOWN, arbiter.hungry, Task(7, 7))
        self.refused(Answer.UNKNOWN, arbiter.hungry, Task(1 << 32, 0))
        self.refused(Answer.UNKNOWN, arbiter.hungry, Task(-1, 0))
        self.refused(Answer.UNKNOWN, arbiter.neighbours, Task(7, 7))
        self.refused(Answer.UNKNOWN, arbiter.blockers, Task(7, 7))
        self.refused(Answer.SAME, arbiter.conflict, a, a)
        self.refused(Answer.APART, arbiter.separate, a, b)
        self.refused(Answer.WRONG_STATE, arbiter.finish, a)
        self.assertIs(arbiter.call(99, a)[0], Answer.NO_SUCH_CALL)
        self.assertIs(arbiter.call((1 << 32) + 1, a)[0], Answer.NO_SUCH_CALL)
        arbiter.close()
        arbiter.close()
        self.refused(Answer.BAD_HANDLE, arbiter.join)
        self.refused(Answer.BAD_HANDLE, arbiter.state, a)

    def test_one_exclusive_resource_has_362_tasks(self):
        arbiter = Arbiter(4096, 65535)
        tasks = [arbiter.join() for _ in range(362)]
        for one, other in itertools.combinations(tasks, 2):
            arbiter.conflict(one, other)
        last = arbiter.join()
        with self.assertRaises(Refused) as raised:
            for task in tasks:
                arbiter.conflict(task, last)
        self.assertIs(raised.exception.answer, Answer.NO_ROOM)

    def test_one_that_is_forgotten_is_closed(self):
        for _ in range(2000):
            Arbiter(4096, 65535)
        gc.collect()


class Texts(unittest.TestCase):
    SCRIPT = b"join a\njoin b\nconflict a b\nhungry a\nbegin a\nhungry b\nbegin b\n"
    REPLIES = b"joined 0.0\njoined 1.1\ndone\ndone\ndone\ndone\nrefused not-yet\n"

    def test_a_script_and_its_journal(self):
        self.assertEqual(dine.run(self.SCRIPT), (dine.Ended.GOOD, self.REPLIES))
        ended, journal = dine.run(self.SCRIPT, tasks=2, conflicts=1, journal=True)
        self.assertIs(ended, dine.Ended.GOOD)
        self.assertEqual(dine.audit(journal), (dine.Ended.GOOD, b"legal 7\novertakes 0\n"))
        wrong = journal.replace(b"refused not-yet", b"done")
        self.assertEqual(dine.audit(wrong), (dine.Ended.WRONG, b"wrong 7 want refused not-yet\n"))
        self.assertEqual(dine.audit(b""), (dine.Ended.FAULT, b"fault header\n"))
        self.assertIs(dine.run(b"jump\n")[0], dine.Ended.FAULT)
        with self.assertRaises(Refused):
            dine.run(b"", tasks=0)

    def test_a_long_output_has_room(self):
        ended, replies = dine.run(b"next\n" * 20000)
        self.assertEqual((ended, len(replies)), (dine.Ended.GOOD, 20000 * len(b"next none\n")))

    def test_eight_threads_at_once(self):
        found = []
        threads = [threading.Thread(target=lambda: found.append(dine.run(self.SCRIPT))) for _ in range(8)]
        for thread in threads:
            thread.start()
        for thread in threads:
            thread.join()
        self.assertEqual(found, [(dine.Ended.GOOD, self.REPLIES)] * 8)


class Meals(unittest.TestCase):
    def test_eight_threads_on_a_ring(self):
        count, meals = 8, 200
        broker = Broker(count, count)
        tasks = [broker.join() for _ in range(count)]
        for at, task in enumerate(tasks):
            broker.conflict(task, tasks[(at + 1) % count])
        eats, clashes, eaten = [False] * count, [], [0] * count

        def eat_often(at):
            for _ in range(meals):
                with broker.meal(tasks[at]):
                    eats[at] = True
                    if eats[(at + 1) % count] or eats[at - 1]:
                        clashes.append(at)
                    eats[at] = False
                    eaten[at] += 1

        threads = [threading.Thread(target=eat_often, args=(at,)) for at in range(count)]
        for thread in threads:
            thread.start()
        for thread in threads:
            thread.join()
        self.assertEqual((clashes, eaten), ([], [meals] * count))

    def test_a_meal_ends_where_its_block_raises(self):
        broker = dine.Broker()
        a = broker.join()
        with self.assertRaises(ZeroDivisionError):
            with broker.meal(a):
                raise ZeroDivisionError
        with broker.changed() as arbiter:
            self.assertIs(arbiter.state(a), State.THINKING)

    def test_a_wait_that_takes_too_long_withdraws(self):
        broker = Broker()
        a, b = broker.join(), broker.join()
        broker.conflict(a, b)
        with broker.meal(a):
            with self.assertRaises(TimeoutError):
                with broker.meal(b, timeout=0.05):
                    self.fail("two tasks in conflict eat")
            with broker.changed() as arbiter:
                self.assertIs(arbiter.state(b), State.THINKING)
        with broker.meal(b, timeout=0):
            pass

    def test_a_stranger_has_no_meal(self):
        with self.assertRaises(Refused):
            with Broker().meal(Task(9, 9)):
                self.fail("a stranger eats")


class Waits(unittest.TestCase):
    def test_a_hungry_task_waits_for_who_eats_and_for_who_ate_earlier(self):
        drawn, waited = random.Random(3), 0
        arbiter, last = Arbiter(), {}
        for _ in range(8):
            task = arbiter.join()
            last[task] = arbiter.clock()
        tasks = list(last)
        for one, other in itertools.combinations(tasks, 2):
            if drawn.random() < 0.4:
                arbiter.conflict(one, other)
        for _ in range(2000):
            task = drawn.choice(tasks)
            if arbiter.state(task) is State.THINKING:
                arbiter.hungry(task)
            elif arbiter.state(task) is State.EATING:
                arbiter.finish(task)
                last[task] = arbiter.clock()
            elif drawn.random() < 0.8:
                arbiter.begin(task)
            else:
                arbiter.withdraw(task)
            hungry = [it for it in tasks if arbiter.state(it) is State.HUNGRY]
            for it in hungry:
                keepers = [
                    other
                    for other in arbiter.neighbours(it)
                    if arbiter.state(other) is State.EATING or (other in hungry and last[other] < last[it])
                ]
                self.assertEqual(arbiter.blockers(it), keepers)
                waited += bool(keepers)
            self.assertEqual(arbiter.ready(), sorted(filter(arbiter.is_ready, hungry), key=last.get))
        self.assertGreater(waited, 1000)


if __name__ == "__main__":
    unittest.main()
