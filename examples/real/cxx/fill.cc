#include "stack.h"

std::size_t fill(Stack<std::string> &stack) {
    calls()++;
    stack.push("second");
    return stack.depth();
}
