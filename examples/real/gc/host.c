/* A program with a function that only its shared library asks for, and one that the library defines too. */
extern int ask(int number);

int answer(int number) { return 3 * number; }
int shadowed(int number) { return number; }
int no_answer(int number) { return 4 * number; }
int main(void) { return ask(2); }
