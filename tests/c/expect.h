/* A case of the tests in C: what is not so is told by its line and counted in `wrong`, which is main's answer. */
#include <stdio.h>

static int wrong;

#define EXPECT(what) \
    do { \
        if (!(what)) { \
            wrong++; \
            printf("line %d: %s\n", __LINE__, #what); \
        } \
    } while (0)
