title='PnetCDF examples: nonblocking_write'
packages='libpnetcdf-dev'
words='made.nc'
prepare() { pnetcdf nonblocking_write; }
