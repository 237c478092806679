/* places.h: where in the sources some calls stand, by the address behind the call. rvmc-cc writes the table, of the calls
   that need it: MPI_Abort and those that give memory. */
#ifndef RVMC_PLACES_H
#define RVMC_PLACES_H

struct rvmc_place {
    unsigned behind, line, file;
};
extern const struct rvmc_place rvmc_places[], rvmc_places_end[];

static inline const struct rvmc_place *rvmc_place_of(const void *behind)
{
    for (const struct rvmc_place *place = rvmc_places; place < rvmc_places_end; place++)
        if (place->behind == (unsigned)(unsigned long)behind)
            return place;
    return 0;
}

static inline const char *rvmc_file_of(const struct rvmc_place *place)
{
    return (const char *)(unsigned long)place->file;
}

#endif
