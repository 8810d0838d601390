title='PnetCDF examples: pthread'
packages='libpnetcdf-dev'
words='made.nc'
options='--this-run'
prepare() { pnetcdf pthread; }
