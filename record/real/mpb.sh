title='MPB: 2 bands, 8 by 8'
packages='mpb-mpi'
words='small.ctl'
prepare() { ln -s /usr/bin/mpb-mpi program
    printf '(set! num-bands 2)\n(set! k-points (list (vector3 0.5 0 0)))\n(set! resolution 8)
(set! geometry-lattice (make lattice (size 1 1 no-size)))
(set! geometry (list (make cylinder (center 0 0 0) (radius 0.2) (height infinity)
  (material (make dielectric (epsilon 12))))))\n(run-te)\n' > small.ctl; }
