// Functions that throw and catch: what describes them to the unwinder lives with them.
#include <stdexcept>
#include <string>

struct Cleaner {
    int &count;
    ~Cleaner() { count--; }
};

static int open_files;

int guarded_call(int (*call)(int), int number) {
    Cleaner cleaner{open_files};
    try {
        return call(number);
    } catch (const std::logic_error &) {
        return -1;
    }
}

int unguarded_call(int (*call)(int), int number) {
    Cleaner cleaner{open_files};
    try {
        return call(number);
    } catch (const std::out_of_range &) {
        return -2;
    }
}

struct Shape {
    virtual ~Shape() = default;
    virtual int sides() const { return 0; }
};
struct Square : Shape {
    int sides() const override { return 4; }
};
struct Hexagon : Shape {
    int sides() const override { return 6; }
};

Shape *make_square() { return new Square; }
Shape *make_hexagon() { return new Hexagon; }

static int fails(int number) { throw std::logic_error(std::to_string(number)); }

int main() {
    Shape *shape = make_square();
    return guarded_call(fails, shape->sides()) + 1;
}
