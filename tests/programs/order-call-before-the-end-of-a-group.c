#if 1
#define f(x) x
f(1