#include <string.h>
int main(void) { char b[8]; memset(b, 65, 9); return 3; }
