title='HyPhy: messages from any'
packages='hyphy-mpi hyphy-common'
words='small.bf'
note='the text is one path, on which the second message is received from whom the first found: its deadlock is none of the program'
prepare() { ln -s /usr/lib/hyphy/bin/HYPHYMPI-sse3 program
    printf 'if (MPI_NODE_ID == 0) {\n for (k = 1; k < MPI_NODE_COUNT; k += 1) { MPISend(k, "return 2;"); }
 for (k = 1; k < MPI_NODE_COUNT; k += 1) { MPIReceive(-1, from, answer); fprintf(stdout, from, "\\n"); }\n}\n' > small.bf; }
