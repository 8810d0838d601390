title='mpi4py: a ring that sends first'
packages='python3-mpi4py'
words='ring.py'
prepare() { ln -s /usr/bin/python3 program
    printf 'from mpi4py import MPI\nc = MPI.COMM_WORLD\nn, r = c.size, c.rank
d = c.bcast({"a": 7} if r == 0 else None)\ne = c.scatter(list(range(n)) if r == 0 else None)\nc.gather(e * e)\nc.allreduce(r)
c.send(r, dest=(r + 1) %% n, tag=5)\nprint(c.recv(source=(r - 1) %% n, tag=5))\n' > ring.py; }
