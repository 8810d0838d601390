title='h5py: one file'
packages='python3-h5py-mpi'
words='small.py'
prepare() { ln -s /usr/bin/python3 program
    printf 'import h5py\nfrom mpi4py import MPI\nf = h5py.File("made.h5", "w", driver="mpio", comm=MPI.COMM_WORLD)
d = f.create_dataset("test", (4,), dtype="i")\nd[MPI.COMM_WORLD.rank] = MPI.COMM_WORLD.rank\nf.close()\n' > small.py; }
