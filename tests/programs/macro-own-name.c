int foo = 2;
#define foo (4 + foo)
int main(void) { return foo; }