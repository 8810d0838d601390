title='GROMACS: water, 4 steps, one rank for PME'
packages='gromacs gromacs-data'
words='mdrun -ntomp 1 -npme 1 -nsteps 4'
prepare() { gromacs; }
