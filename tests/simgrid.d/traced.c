/* A program of MPI whose trace is replayed here and by SimGrid: a ring in which each rank waits for what it receives before what it
   has sent. */
#include <mpi.h>
#include <stdlib.h>

int main(int argc, char **argv)
{
    int rank, size;
    MPI_Init(&argc, &argv);
    MPI_Comm_rank(MPI_COMM_WORLD, &rank);
    MPI_Comm_size(MPI_COMM_WORLD, &size);
    char *mine = calloc(1, 100000), *theirs = calloc(1, 100000);
    for (int round = 0; round < 3; round++) {
        MPI_Request send, receive;
        MPI_Isend(mine, 100000, MPI_BYTE, (rank + 1) % size, 0, MPI_COMM_WORLD, &send);
        MPI_Irecv(theirs, 100000, MPI_BYTE, (rank + size - 1) % size, 0, MPI_COMM_WORLD, &receive);
        MPI_Wait(&receive, MPI_STATUS_IGNORE);
        MPI_Wait(&send, MPI_STATUS_IGNORE);
    }
    free(mine);
    free(theirs);
    MPI_Finalize();
    return 0;
}
