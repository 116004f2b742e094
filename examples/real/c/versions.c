/* A symbol of two versions, of which the second is the default one. */
__asm__(".symver old_limit, limit@SHAPES_1");
__asm__(".symver new_limit, limit@@SHAPES_2");

int old_limit(void) { return 1; }
int new_limit(void) { return 2; }
