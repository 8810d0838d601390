title='SUNDIALS examples: ark_brusselator1D_task_local_nls'
packages='libsundials-dev'
options='--calls 2000'
prepare() { sundials arkode/C_parallel/ark_brusselator1D_task_local_nls.c arkode; }
