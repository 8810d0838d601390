/* Each rank writes its rows of one data set, all together, and reads them back. */
#include <hdf5.h>

int main(int argc, char **argv) {
    int rank, ranks, data[2][6];
    MPI_Init(&argc, &argv);
    MPI_Comm_rank(MPI_COMM_WORLD, &rank);
    MPI_Comm_size(MPI_COMM_WORLD, &ranks);
    hid_t access = H5Pcreate(H5P_FILE_ACCESS), transfer = H5Pcreate(H5P_DATASET_XFER);
    H5Pset_fapl_mpio(access, MPI_COMM_WORLD, MPI_INFO_NULL);
    H5Pset_dxpl_mpio(transfer, H5FD_MPIO_COLLECTIVE);
    hsize_t whole[2] = {2 * ranks, 6}, part[2] = {2, 6}, start[2] = {2 * rank, 0};
    hid_t file = H5Fcreate("made.h5", H5F_ACC_TRUNC, H5P_DEFAULT, access);
    hid_t space = H5Screate_simple(2, whole, NULL), memory = H5Screate_simple(2, part, NULL);
    hid_t set = H5Dcreate2(file, "numbers", H5T_NATIVE_INT, space, H5P_DEFAULT, H5P_DEFAULT, H5P_DEFAULT);
    for (int i = 0; i < 12; i++) data[i / 6][i % 6] = rank;
    H5Sselect_hyperslab(space, H5S_SELECT_SET, start, NULL, part, NULL);
    H5Dwrite(set, H5T_NATIVE_INT, memory, space, transfer, data);
    H5Dread(set, H5T_NATIVE_INT, memory, space, transfer, data);
    H5Dclose(set);
    H5Fclose(file);
    MPI_Finalize();
}
