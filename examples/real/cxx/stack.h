// A template and an inline function, which each file that uses them brings along.
#include <string>
#include <vector>

template <typename Item>
struct Stack {
    std::vector<Item> items;
    void push(const Item &item) { items.push_back(item); }
    std::size_t depth() const { return items.size(); }
};

inline int &calls() {
    static int count = 0;
    return count;
}

std::size_t fill(Stack<std::string> &stack);
