#include <string.h>
int main(void) { char b[9999999999999999999999999999999999999999]; memset(b, 65, 8); return 3; }
