title='NEURON: ParallelContext, 8 units of work'
packages='python3-neuron'
options='--this-run'
note='hangs where standard sends are synchronous, so it leans on buffering'
words='small.py'
prepare() { ln -s /usr/bin/python3 program
    printf 'from mpi4py import MPI\nfrom neuron import h\npc = h.ParallelContext()\ndef f(i): return i * i\npc.runworker()
for i in range(8): pc.submit(f, i)\nwhile pc.working(): print(pc.pyret())\npc.done()\nh.quit()\n' > small.py; }
