// Times of a comparison.
#ifndef MEASURE_H
#define MEASURE_H

struct timespec {
    long seconds, nanoseconds;
};
int clock_gettime(int clock, struct timespec *to);

static double now(void) {
    struct timespec t;
    clock_gettime(1, &t);
    return (double)t.seconds * 1e9 + (double)t.nanoseconds;
}

struct times {
    double least, median;
};

static struct times sorted(double *v, unsigned n) {
    for (unsigned i = 1; i < n; i++)
        for (unsigned k = i; k && v[k] < v[k - 1]; k--) {
            double x = v[k];
            v[k] = v[k - 1];
            v[k - 1] = x;
        }
    return (struct times){v[0], v[n / 2]};
}

#endif
