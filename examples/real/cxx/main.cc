#include "stack.h"

#include <iostream>

int main() {
    Stack<std::string> stack;
    stack.push("first");
    calls()++;
    std::cout << fill(stack) << " " << calls() << "\n";
}
