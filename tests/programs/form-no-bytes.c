#include <string.h>
int main(void) { char b[0]; memset(b, 65, 8); return 3; }
