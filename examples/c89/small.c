int f(void) { if (low < high) return low; return 0; }
