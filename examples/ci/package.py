# var/spack/repos/builtin/packages/mpiprove/package.py, or that of a repository of your own: installs
# the archive that ./build --package wrote
from spack.package import *


class Mpiprove(Package):
    """Tells whether an MPI program can hang, for every interleaving, every match of a wildcard, and
    every choice whether a standard send is buffered."""

    homepage = "https://example.org/mpiprove"
    url = "https://example.org/mpiprove-1.0.0-linux-x86_64.tar.xz"

    # Its line of SHA256SUMS
    version("1.0.0", sha256="0" * 64)

    depends_on("gmake", type="run")
    depends_on("mpi", type="run")
    conflicts("target=aarch64:", msg="the program is built for x86-64")

    def install(self, spec, prefix):
        install_tree(".", prefix)
