"""A thread takes a lock that it has."""
import threading

import armus

account = threading.Lock()
with account:
    try:
        with account:
            print('twice')
    except armus.DeadlockError as error:
        print(error)
print('end')
