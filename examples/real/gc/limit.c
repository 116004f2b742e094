/* The strong definition, and what it asks for. */
static int value = 9;
int vacant = 8;

int limit(void) { return value; }
int no_limit(void) { return -1; }
