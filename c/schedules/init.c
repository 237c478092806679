/* A beginning and an end.

   c/rvmc-cc -n 8 --memory 49152 --stack 4096 -o init_8.image c/schedules/init.c */
#include <mpi.h>

int main(int argc, char **argv)
{
    MPI_Init(&argc, &argv);
    MPI_Finalize();
    return 0;
}
