title='SLEPc tutorials: eps ex2'
packages='libslepc3.18-dev-examples slepc-dev'
prepare() { slepc eps/tutorials/ex2.c; }
