/* dlfcn.h: not served, so that a program that needs it learns why. */
#error "rvmc: there are no libraries to load: name all sources"
