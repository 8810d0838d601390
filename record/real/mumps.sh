title='MUMPS: dsimpletest'
packages='mumps-test'
options='--this-run'
stdin=input_simpletest_real
prepare() { ln -s /usr/lib/mumps/dsimpletest program
    cp /usr/lib/mumps/input_simpletest_real .; }
