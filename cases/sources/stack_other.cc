template <class T> T largest(T a, T b) { return a < b ? b : a; }
inline long counted(long it) { static long calls; return it + ++calls; }
struct Shape { virtual long area() const = 0; };
struct Square : Shape { long side; Square(long it) : side(it) {} long area() const override { return side * side; } };
static const Square five(5);
const Shape &other() { return five; }
long elsewhere(long it) { return largest(counted(it), 100L) + counted(0); }
