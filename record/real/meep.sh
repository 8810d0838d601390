title='Meep: 8 by 4'
packages='python3-meep-openmpi python3-matplotlib'
words='small.py'
prepare() { ln -s /usr/bin/python3 program
    printf 'import meep as mp\ns = mp.Simulation(cell_size=mp.Vector3(8, 4), resolution=5, boundary_layers=[mp.PML(1)],
  sources=[mp.Source(mp.ContinuousSource(frequency=0.15), component=mp.Ez, center=mp.Vector3())])\ns.run(until=2)\n' > small.py; }
