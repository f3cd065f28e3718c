#include <string.h>
int main(void) { char b[08]; memset(b, 65, 8); return 3; }
