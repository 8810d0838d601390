title='SuperLU_DIST tests: pddrive_ABglobal'
packages='libsuperlu-dist-dev'
options='--this-run'
words='-r 2 -c 2 g20.rua'
prepare() { superlu pddrive_ABglobal; }
