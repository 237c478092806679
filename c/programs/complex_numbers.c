/* Complex numbers of C: sums and products over the ranks.

   c/rvmc-cc -n 3 -o complex_numbers.image c/programs/complex_numbers.c && rvmc run < complex_numbers.image */
#include <complex.h>
#include <mpi.h>
#include <stdio.h>

int main(int argc, char *argv[])
{
    int rank, size, bytes;
    float complex f, f_sum, f_product;
    double complex d, d_sum, d_product, all[8];
    long double complex l, l_sum;

    MPI_Init(&argc, &argv);
    MPI_Comm_rank(MPI_COMM_WORLD, &rank);
    MPI_Comm_size(MPI_COMM_WORLD, &size);
    f = rank + 1 + (rank - 1.5f) * I;
    d = 2.0 - rank + 0.25 * (rank + 1) * I;
    l = 0.5L * rank - 1.0L * rank * I;
    MPI_Allreduce(&f, &f_sum, 1, MPI_C_COMPLEX, MPI_SUM, MPI_COMM_WORLD);
    MPI_Allreduce(&f, &f_product, 1, MPI_C_FLOAT_COMPLEX, MPI_PROD, MPI_COMM_WORLD);
    MPI_Allreduce(&d, &d_sum, 1, MPI_C_DOUBLE_COMPLEX, MPI_SUM, MPI_COMM_WORLD);
    MPI_Scan(&d, &d_product, 1, MPI_C_DOUBLE_COMPLEX, MPI_PROD, MPI_COMM_WORLD);
    MPI_Allreduce(&l, &l_sum, 1, MPI_C_LONG_DOUBLE_COMPLEX, MPI_SUM, MPI_COMM_WORLD);
    printf("floats: sum %g %g, product %g %g\n", crealf(f_sum), cimagf(f_sum), crealf(f_product), cimagf(f_product));
    printf("doubles: sum %g %g, product so far %g %g\n", creal(d_sum), cimag(d_sum), creal(d_product), cimag(d_product));
    printf("long doubles: sum %g %g\n", (double)creall(l_sum), (double)cimagl(l_sum));
    MPI_Allgather(&d, 1, MPI_C_DOUBLE_COMPLEX, all, 1, MPI_C_DOUBLE_COMPLEX, MPI_COMM_WORLD);
    for (int r = 0; r < size; r++)
        printf("rank %d has %g %g\n", r, creal(all[r]), cimag(all[r]));
    MPI_Type_size(MPI_C_DOUBLE_COMPLEX, &bytes);
    printf("%d bytes each\n", bytes);
    MPI_Finalize();
    return 0;
}
