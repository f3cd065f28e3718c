#include <string.h>
int main(void) { char b[1]; memset(b, 0, 0); return 0; }
