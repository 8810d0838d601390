title='PnetCDF tools: ncmpigen'
packages='pnetcdf-bin'
ranks=2
words='-o made.nc small.cdl'
prepare() { ln -s /usr/bin/ncmpigen program
    printf "netcdf small { dimensions: x = 4; variables: int v(x); data: v = 1, 2, 3, 4; }\n" > small.cdl; }
