/* In the shared library: it asks the program for a function. */
extern int answer(int number);

int ask(int number) { return answer(number) + 1; }
int shadowed(int number) { return number - 1; }
