template <class T> struct Held { T value; virtual T get() { return value; } virtual ~Held() {} };
inline int shared() { static int calls; return ++calls; }
int use() { Held<int> a; a.value = shared(); Held<long> b; b.value = 2; Held<int> *p = &a; return p->get() + (int) b.get(); }
