/* utsname.h: POSIX's uname, which picolibc doesn't have. */
#ifndef RVMC_UTSNAME_H
#define RVMC_UTSNAME_H

struct utsname {
    char sysname[16], nodename[16], release[16], version[16], machine[16];
};

int uname(struct utsname *names);

#endif
