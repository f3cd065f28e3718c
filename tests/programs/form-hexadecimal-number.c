#include <string.h>
int main(void) { char b[8]; memset(b, 0x41, 8); return 3; }
