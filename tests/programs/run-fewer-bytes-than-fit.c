#include <string.h>
int main(void) { char b[8]; memset(b, 65, 7); return 9; }
