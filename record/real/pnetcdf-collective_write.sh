title='PnetCDF examples: collective_write'
packages='libpnetcdf-dev'
words='made.nc'
prepare() { pnetcdf collective_write; }
