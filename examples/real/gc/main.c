/* A program of which some functions and data are used, and others not. */
#include <stdio.h>

extern int twice(int number);
extern int count_plugins(void);

int used_table[] = {1, 2, 3};
int unused_table[] = {4, 5, 6};

/* Only each other asks for these two. */
int odd(int number);
int even(int number) { return number == 0 || odd(number - 1); }
int odd(int number) { return number != 0 && even(number - 1); }

/* A default that another file overrides, and what only this default asks for. */
static int low_limit(void) { return unused_table[0]; }
__attribute__((weak, noinline)) int limit(void) { return low_limit(); }

/* Kept, though nothing asks for them. */
__attribute__((retain, used)) int stamp = 7;
__attribute__((constructor)) static void begin(void) { puts("begin"); }
__attribute__((destructor)) static void finish(void) { puts("finish"); }

int main(void) {
    printf("%d %d %d\n", twice(used_table[1]), limit(), count_plugins());
    return 0;
}
