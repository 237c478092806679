/* Structs and numbers of several kinds, packed into one message by hand; and the form that is the same on all machines.

   c/rvmc-cc -n 2 -o type_pack.image c/programs/type_pack.c && rvmc run < type_pack.image */
#include <mpi.h>
#include <stddef.h>
#include <stdio.h>
#include <string.h>

struct particle {
    char kind;
    double place[2];
    short charge;
};

static MPI_Datatype particle_type(void)
{
    const int lengths[3] = {1, 2, 1};
    const MPI_Aint places[3] = {offsetof(struct particle, kind), offsetof(struct particle, place),
                                offsetof(struct particle, charge)};
    const MPI_Datatype types[3] = {MPI_CHAR, MPI_DOUBLE, MPI_SHORT};
    MPI_Datatype parts, whole;

    MPI_Type_create_struct(3, lengths, places, types, &parts);
    MPI_Type_create_resized(parts, 0, sizeof(struct particle), &whole);
    MPI_Type_free(&parts);
    MPI_Type_commit(&whole);
    return whole;
}

/* Of datatypes of one basic datatype each: MPICH 4.0.2 can't pack others in this form. */
static void external(void)
{
    short shorts[4] = {-2, 258, 3, 4};
    long longs[2] = {-5, 70000};
    double numbers[2] = {1.5, -2};
    unsigned char bytes[64];
    MPI_Aint size, position = 0;
    MPI_Datatype type;

    MPI_Type_vector(2, 1, 3, MPI_SHORT, &type);
    MPI_Type_commit(&type);
    MPI_Pack_external_size("external32", 1, type, &size);
    MPI_Pack_external("external32", shorts, 1, type, bytes, sizeof bytes, &position);
    MPI_Pack_external("external32", longs, 2, MPI_LONG, bytes, sizeof bytes, &position);
    MPI_Pack_external("external32", numbers, 2, MPI_DOUBLE, bytes, sizeof bytes, &position);
    printf("external32: %d and more, %d packed:", (int)size, (int)position);
    for (int i = 0; i < position; i++)
        printf(" %02x", bytes[i]);
    printf("\n");
    memset(shorts, 0, sizeof shorts);
    memset(longs, 0, sizeof longs);
    memset(numbers, 0, sizeof numbers);
    position = 0;
    MPI_Unpack_external("external32", bytes, sizeof bytes, &position, shorts, 1, type);
    MPI_Unpack_external("external32", bytes, sizeof bytes, &position, longs, 2, MPI_LONG);
    MPI_Unpack_external("external32", bytes, sizeof bytes, &position, numbers, 2, MPI_DOUBLE);
    printf("back: %d %d %d %d, %ld %ld, %.1f %.1f\n", shorts[0], shorts[1], shorts[2], shorts[3], longs[0], longs[1], numbers[0],
           numbers[1]);
    MPI_Type_free(&type);
}

int main(int argc, char *argv[])
{
    struct particle particles[3] = {{'a', {1, 2}, 3}, {'b', {4, 5}, 6}, {'c', {7, 8}, 9}};
    char buffer[200];
    int rank, position = 0, count = 3, size, got;
    MPI_Datatype type;
    MPI_Status status;

    MPI_Init(&argc, &argv);
    MPI_Comm_rank(MPI_COMM_WORLD, &rank);
    type = particle_type();
    MPI_Pack_size(count, type, MPI_COMM_WORLD, &size);
    printf("room for three: %s\n", size >= 3 * 19 && size <= 200 ? "yes" : "no");
    if (rank == 0) {
        MPI_Pack(&count, 1, MPI_INT, buffer, sizeof buffer, &position, MPI_COMM_WORLD);
        MPI_Pack(particles, count, type, buffer, sizeof buffer, &position, MPI_COMM_WORLD);
        MPI_Send(buffer, position, MPI_PACKED, 1, 0, MPI_COMM_WORLD);
        MPI_Send(particles, 2, type, 1, 1, MPI_COMM_WORLD);
        external();
    } else {
        memset(particles, 0, sizeof particles);
        count = 0;
        MPI_Recv(buffer, sizeof buffer, MPI_PACKED, 0, 0, MPI_COMM_WORLD, &status);
        MPI_Get_count(&status, MPI_PACKED, &got);
        MPI_Unpack(buffer, got, &position, &count, 1, MPI_INT, MPI_COMM_WORLD);
        MPI_Unpack(buffer, got, &position, particles, count, type, MPI_COMM_WORLD);
        printf("%d particles, all unpacked: %d\n", count, position == got);
        for (int i = 0; i < count; i++)
            printf("%c at %.0f %.0f of %d\n", particles[i].kind, particles[i].place[0], particles[i].place[1],
                   particles[i].charge);
        MPI_Recv(particles + 1, 2, type, 0, 1, MPI_COMM_WORLD, &status);
        MPI_Get_count(&status, type, &got);
        MPI_Get_elements(&status, type, &count);
        printf("%c %c %c: %d, elements %d\n", particles[0].kind, particles[1].kind, particles[2].kind, got, count);
    }
    MPI_Type_free(&type);
    MPI_Finalize();
    return 0;
}
