/* A section of its own, whose start and stop the linker defines. */
#define IN_TABLE __attribute__((section("steps"), used))

static int first IN_TABLE = 1;
static int second IN_TABLE = 2;

extern int __start_steps[], __stop_steps[];

int count_steps(void) { return (int)(__stop_steps - __start_steps); }
