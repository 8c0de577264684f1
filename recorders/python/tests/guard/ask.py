"""The least recorder that asks: it plays three tasks that come to two barriers, asks before each wait, and writes the answers. Main is a party of both barriers."""
import os
import socket

connection = socket.socket(socket.AF_UNIX)
connection.connect(os.environ['ARMUS_SOCKET'].split('|')[0])
connection.settimeout(10)
answers = connection.makefile('r')
process = f'{os.getpid()}/'


def say(*lines):
    """The lines of one or several events, in one write."""
    connection.sendall(''.join(line.replace('~', process) + '\n' for line in lines).encode())


def ask(line):
    """A wait, and its answer."""
    say(line)
    print(answers.readline().rstrip('\n').replace(process, ''), flush=True)


say('# process ~', '~main join ~pc 0 @Averaging:6', '~main join ~pb 0 @Averaging:7')
for worker in ('worker-0', 'worker-1'):
    say(f'~{worker} join ~pc 0 @Averaging:9', f'~{worker} join ~pb 0')
    say(f'~{worker} arrive ~pc')
    ask(f'~{worker} wait ~pc 1 @Averaging:14')
say('~main arrive ~pb')
ask('~main wait ~pb 1 @Averaging:21')
say('~main leave ~pb')
ask('~nobody wait ~pb 01 @Averaging:22')
say('~main arrive ~pc', '~worker-0 go', '~worker-1 go')
