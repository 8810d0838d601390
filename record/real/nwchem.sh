title='NWChem: hydrogen'
packages='nwchem-openmpi nwchem-data'
words='small.nw'
options='--this-run --leave-out'
prepare() { ln -s /usr/bin/nwchem.openmpi program
    printf 'start h2\ngeometry\n H 0 0 0\n H 0 0 0.74\nend\nbasis\n H library sto-3g\nend\ntask scf\n' > small.nw; }
