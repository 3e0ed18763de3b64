/* A program with a C library: it copies a table to the heap, sorts it, and prints floating-point numbers: how many times as far as
   the Earth a planet is from the sun, and how many years its way around takes by that, as Kepler has it. It is plain C: any compiler
   makes it, for any machine. */
#include <errno.h>
#include <math.h>
#include <stdio.h>
#include <stdlib.h>
#include <string.h>

struct planet {
    char name[8];
    double distance;
};

static const struct planet planets[] = {
    {"Saturn", 9.5367}, {"Earth", 1.0}, {"Mars", 1.52366}, {"Venus", 0.72333}, {"Mercury", 0.3871}, {"Jupiter", 5.2034},
};
enum { COUNT = sizeof planets / sizeof planets[0] };

static int by_distance(const void *one, const void *other)
{
    const struct planet *left = one, *right = other;
    return (left->distance > right->distance) - (left->distance < right->distance);
}

int main(void)
{
    struct planet *sorted = malloc(sizeof planets);
    if (sorted == NULL)
        return 1;
    memcpy(sorted, planets, sizeof planets);
    qsort(sorted, COUNT, sizeof sorted[0], by_distance);
    for (size_t k = 0; k < COUNT; k++) {
        double distance = sorted[k].distance;
        printf("%-8s %f %8.3f\n", sorted[k].name, distance, sqrt(distance * distance * distance));
    }
    free(sorted);
    errno = 0;
    long most = strtol("99999999999999999999", NULL, 10);
    printf("%ld, %s\n", strtol("-365", NULL, 10), most > 0 && errno == ERANGE ? "out of range" : "in range");
    return 0;
}
