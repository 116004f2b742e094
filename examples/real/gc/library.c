/* In the shared output: what it exports, what it hides, and what its version script makes local. */
static int next(int number) { return number + 1; }
static int previous(int number) { return number - 1; }

int shown(int number) { return next(number); }
int kept_inside(int number) { return previous(number); }
__attribute__((visibility("hidden"))) int hidden(int number) { return 5 * number; }
__attribute__((visibility("protected"))) int guarded(int number) { return 6 * number; }
