/* A transform of 12 by 10 and back, and a transpose, by FFTW. */
#include <fftw3-mpi.h>
#ifndef PLAN
#define PLAN FFTW_ESTIMATE
#endif

int main(int argc, char **argv) {
    MPI_Init(&argc, &argv);
    fftw_mpi_init();
    ptrdiff_t rows, first, size = fftw_mpi_local_size_2d(12, 10, MPI_COMM_WORLD, &rows, &first);
    fftw_complex *data = fftw_alloc_complex(size);
    fftw_plan there = fftw_mpi_plan_dft_2d(12, 10, data, data, MPI_COMM_WORLD, FFTW_FORWARD, PLAN);
    fftw_plan back = fftw_mpi_plan_dft_2d(12, 10, data, data, MPI_COMM_WORLD, FFTW_BACKWARD, PLAN);
    for (ptrdiff_t i = 0; i < rows * 10; i++) data[i][0] = first + i, data[i][1] = 0;
    fftw_execute(there);
    fftw_execute(back);
    double *numbers = fftw_alloc_real(2 * size);
    fftw_plan turn = fftw_mpi_plan_transpose(12, 10, numbers, numbers, MPI_COMM_WORLD, PLAN);
    fftw_execute(turn);
    MPI_Finalize();
}
