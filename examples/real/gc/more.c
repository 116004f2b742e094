/* In the archive: one function that is asked for, and others that aren't. */
static int calls;
static const char *const names[] = {"one", "two"};

int twice(int number) { return calls++, 2 * number; }
int thrice(int number) { return calls++, 3 * number; }
const char *name_of(int number) { return names[number & 1]; }
