/* A program with a function that a shared library asks for, which the program doesn't need. */
int answer(int number) { return 3 * number; }
int main(void) { return 0; }
