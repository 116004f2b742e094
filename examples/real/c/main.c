/* A program over the shapes: it asks for area, not for volume. */
#include <stdio.h>

extern double area(double width, double height);
extern void report(const char *text);

/* A common symbol; that of area.c is larger. */
char scratch[8];

/* A default that log.c overrides. */
__attribute__((weak)) void report(const char *text) { (void)text; }

/* Nothing defines it: it is null at run time. */
extern void trace(void) __attribute__((weak));

int main(void) {
    double size = area(2.0, 3.0);
    report("area");
    if (trace) trace();
    printf("%g %d\n", size, scratch[0]);
    return 0;
}
