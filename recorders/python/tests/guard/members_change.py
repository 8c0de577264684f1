"""No deadlock: barriers at which nobody says who belongs, one with other threads in each turn, one that is broken and reset, one with a limit, one whose members were wrong."""
import threading

import armus

free, changing, broken, wrong = threading.Barrier(2), threading.Barrier(2), threading.Barrier(2), threading.Barrier(2)
account = threading.Lock()


def pair(*functions):
    threads = [threading.Thread(target=function) for function in functions]
    for thread in threads:
        thread.start()
    for thread in threads:
        thread.join()


def meets(barrier, says=False):
    def meet():
        if says:
            armus.member(barrier)
        with account:
            pass
        barrier.wait()
    return meet


def meets_with_limit():
    armus.member(broken)
    try:
        broken.wait(0.05)
    except threading.BrokenBarrierError:
        print('broken\n', end='')


for _ in range(5):
    pair(meets(free), meets(free))
    pair(meets(changing, True), meets(changing))
for _ in range(3):
    pair(meets_with_limit)
    broken.reset()
    pair(meets(broken, True), meets(broken, True))
pair(meets(wrong, True), meets(wrong, True))
pair(meets(wrong), meets(wrong))
print('end')
