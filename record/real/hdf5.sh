title='HDF5: hyperslabs in one file'
packages='libhdf5-openmpi-dev'
prepare() { h5pcc.openmpi -g -w -o program ../../../real/hdf5.c; }
