#include <stdio.h>
#include <stdlib.h>
int main(void) { char *p = malloc(240000); printf("%d\n", p != 0); }
