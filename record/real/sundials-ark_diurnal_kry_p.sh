title='SUNDIALS examples: ark_diurnal_kry_p'
packages='libsundials-dev'
options='--calls 2000'
prepare() { sundials arkode/C_parallel/ark_diurnal_kry_p.c arkode; }
