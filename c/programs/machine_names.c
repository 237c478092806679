/* What a program asks of the system that it runs on: names, numbers, folders, variables.

   c/rvmc-cc -n 2 -o machine_names.image c/programs/machine_names.c && rvmc run < machine_names.image */
#include <mpi.h>
#include <stdio.h>
#include <stdlib.h>
#include <string.h>
#include <sys/utsname.h>
#include <unistd.h>

int main(int argc, char *argv[])
{
    char host[256] = "", name[MPI_MAX_PROCESSOR_NAME] = "", folder[1024] = "";
    int rank, length = 0, mine, ids[2];
    struct utsname system;

    MPI_Init(&argc, &argv);
    MPI_Comm_rank(MPI_COMM_WORLD, &rank);
    printf("gethostname: %s\n", gethostname(host, sizeof(host)) == 0 && host[0] ? "a name" : "WRONG");
    MPI_Get_processor_name(name, &length);
    printf("MPI_Get_processor_name: %s\n", length > 0 && length == (int)strlen(name) ? "a name" : "WRONG");
    printf("uname: %s\n", uname(&system) >= 0 && system.sysname[0] && system.nodename[0] ? "a system and a node" : "WRONG");
    printf("getcwd: %s\n", getcwd(folder, sizeof(folder)) && folder[0] == '/' ? "a folder" : "WRONG");
    printf("getenv: %s\n", getenv("NO_SUCH_VARIABLE_IS_SET") == NULL ? "not set" : "WRONG");
    mine = (int)getpid();
    MPI_Allgather(&mine, 1, MPI_INT, ids, 1, MPI_INT, MPI_COMM_WORLD);
    printf("getpid: %s\n", ids[0] > 0 && ids[0] != ids[1] && getpid() == mine ? "one for each rank" : "WRONG");
    MPI_Finalize();
    return 0;
}
