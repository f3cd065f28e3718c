#include <string.h>
int main(void) { char b[8]; mem\
set(b, 6\
5, 8); return 3; }
