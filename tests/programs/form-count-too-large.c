#include <string.h>
int main(void) { char b[8]; memset(b, 65, 65536); return 3; }
