#define f(x) x x
f(1, 2)