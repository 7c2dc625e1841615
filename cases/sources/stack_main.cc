extern "C" {
#include "start.h"
}

template <class T> struct Stack {
    T items[16]; int count = 0;
    void push(T it) { items[count++] = it; }
    T pop() { return items[--count]; }
};
template <class T> T largest(T a, T b) { return a < b ? b : a; }
inline long counted(long it) { static long calls; return it + ++calls; }
struct Shape { virtual long area() const = 0; };
struct Square : Shape { long side; Square(long it) : side(it) {} long area() const override { return side * side; } };
extern "C" void __cxa_pure_virtual() {}
extern long elsewhere(long); extern const Shape &other();
extern "C" int begin(long *) {
    Stack<long> all; for (long i = 0; i < 10; i++) all.push(largest(i, 10 - i));
    long it = 0; while (all.count) it = it * 3 + counted(all.pop());
    Square own(6); const Shape &by_name = own;
    number(it); number(elsewhere(it)); number(by_name.area()); number(other().area());
    return (int) (elsewhere(1) & 63);
}
