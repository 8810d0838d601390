title='SLEPc tutorials: eps ex5'
packages='libslepc3.18-dev-examples slepc-dev'
prepare() { slepc eps/tutorials/ex5.c; }
