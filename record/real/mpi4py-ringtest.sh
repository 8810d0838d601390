title='mpi4py.bench: ringtest'
packages='python3-mpi4py'
ranks=8
words='-m mpi4py.bench ringtest'
prepare() { ln -s /usr/bin/python3 program; }
