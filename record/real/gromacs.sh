title='GROMACS: water, 4 steps, no rank for PME'
packages='gromacs gromacs-data'
words='mdrun -ntomp 1 -npme 0 -nsteps 4'
prepare() { gromacs; }
