title='SUNDIALS examples: cvDiurnal_kry_bbd_p'
packages='libsundials-dev'
options='--calls 2000'
prepare() { sundials cvode/parallel/cvDiurnal_kry_bbd_p.c cvode; }
