"""Two processes meet at two barriers of theirs in opposite order."""
import multiprocessing


def cross(first, second):
    first.wait()
    second.wait()


if __name__ == '__main__':
    left, right = multiprocessing.Barrier(2), multiprocessing.Barrier(2)
    other = multiprocessing.Process(target=cross, args=(right, left))
    other.start()
    cross(left, right)
