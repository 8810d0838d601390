title='FreeFem++: Poisson, a message and a broadcast'
packages='freefem++'
words='-v 0 -nw small.edp'
prepare() { ln -s /usr/bin/FreeFem++-mpi program
    printf 'mesh Th = square(4, 4); fespace Vh(Th, P1); Vh u, v;
solve p(u, v) = int2d(Th)(dx(u)*dx(v) + dy(u)*dy(v)) - int2d(Th)(v) + on(1, 2, 3, 4, u = 0);
real s = int2d(Th)(u), t = s; if (mpirank > 0) processor(0) << s; else for (int i = 1; i < mpisize; ++i) { processor(i) >> t; s += t; }
broadcast(processor(0), s); cout << s << endl;\n' > small.edp; }
