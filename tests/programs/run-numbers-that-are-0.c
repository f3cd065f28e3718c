#include <string.h>
int main(void) { char b[8]; memset(b, 00, 0x0); return 0; }
