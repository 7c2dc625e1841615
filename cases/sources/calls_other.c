int shared = 30; extern int common[]; int common[10]; int replaced(void) { return 2; }
long step(int kind, long it) {
    switch (kind) {
    case 0: return it + 3; case 1: return it * 2; case 2: return it - common[3]; case 3: return it ^ 5; case 4: return it + shared;
    case 5: return it / 2; case 6: return ~it; case 7: return it << 1; default: return it % 1000;
    }
}
