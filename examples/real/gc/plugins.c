/* Sections that stand between a start and a stop symbol, one of which is asked for by a function that isn't. */
#define IN(name) __attribute__((section(name), used))

static int first IN("plugins") = 1;
static int second IN("plugins") = 2;
static int hidden IN("spare_plugins") = 3;
static int lonely IN("lonely_plugins") = 4;

extern int __start_plugins[], __stop_plugins[], __start_spare_plugins[];

int count_plugins(void) { return (int)(__stop_plugins - __start_plugins); }
int spare_plugin(void) { return __start_spare_plugins[0]; }
