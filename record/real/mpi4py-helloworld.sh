title='mpi4py.bench: helloworld'
packages='python3-mpi4py'
ranks=8
words='-m mpi4py.bench helloworld'
prepare() { ln -s /usr/bin/python3 program; }
