title='SLEPc tutorials: eps ex1'
packages='libslepc3.18-dev-examples slepc-dev'
prepare() { slepc eps/tutorials/ex1.c; }
