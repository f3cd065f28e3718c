#include <string.h>
int main(void) { char b[4096]; memset(b, 255, 4096); return 1; }
