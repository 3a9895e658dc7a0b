"""The service: one process that many clients ask over a socket, in the lines of the program.

What takes lines in and keeps the journal:

    service.py     puts all together: how it begins and how it ends
    sockets.py     the sockets on which it listens, and what else it asks of the system
    client.py      a connection: its lines in order, and what bounds it
    keeper.py      the one program that keeps the journal: it answers commands
    supervisor.py  has a program begun again whenever it ends
    child.py       the program as a child of this process
    journal.py     the journal's file while it grows, and as it stood at a revision

What stands on that:

    ops.py         what a line asks
    disk.py        what is told while the journal can't be written, and until when
    times.py       when each command was accepted
    readers.py     programs that follow the keeper: they answer requests, so that no client can stop the others
    pages.py       the page in a browser, by a process of its own
    watching.py    what is counted and logged
    http.py        what is answered over HTTP: counts, health, the journal"""
