#include <string.h>
int main(void) { char b[8]; memset(b, 65, 8); return 3; }
