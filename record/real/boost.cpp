/* Strings by isend, irecv and wait_all around a ring, then gathered and exchanged by all. */
#include <boost/mpi.hpp>
#include <boost/serialization/string.hpp>
#include <boost/serialization/vector.hpp>

namespace mpi = boost::mpi;

int main(int argc, char **argv) {
    mpi::environment environment(argc, argv);
    mpi::communicator world;
    int rank = world.rank(), ranks = world.size();
    std::string mine(rank + 1, 'x'), other;
    mpi::request both[2] = {world.isend((rank + 1) % ranks, 3, mine), world.irecv((rank + ranks - 1) % ranks, 3, other)};
    mpi::wait_all(both, both + 2);
    std::vector<std::string> all;
    mpi::gather(world, other, all, 0);
    std::vector<std::string> out(ranks, mine), in;
    mpi::all_to_all(world, out, in);
}
