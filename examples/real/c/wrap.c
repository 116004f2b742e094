/* The wrapper of scale, which asks for the wrapped one. */
extern double __real_scale(double value);

double __wrap_scale(double value) { return __real_scale(value) + 1.0; }
