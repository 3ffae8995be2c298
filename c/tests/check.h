/* The line of the last condition that did not hold: 0 where all of them did. */
#ifndef CHECK_H
#define CHECK_H

static int wrong;

#define CHECK(holds) do { \
        if (!(holds)) \
            wrong = __LINE__; \
    } while (0)

#endif
