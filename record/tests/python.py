# Both ranks send before they receive.
from mpi4py import MPI

world = MPI.COMM_WORLD


def swap(other):
    world.send(world.rank, dest=other)
    return world.recv(source=other)


swap(1 - world.rank)
