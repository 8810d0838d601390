title='LAMMPS: melt, 10 steps of 256 atoms'
packages='lammps lammps-examples'
words='-in in.melt'
prepare() { ln -s /usr/bin/lmp program
    sed "s/0 10 0 10 0 10/0 4 0 4 0 4/; s/^run.*/run 10/" /usr/share/lammps/examples/melt/in.melt > in.melt; }
