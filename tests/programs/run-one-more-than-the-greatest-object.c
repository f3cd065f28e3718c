#include <string.h>
int main(void) { char b[4096]; memset(b, 65, 4097); return 3; }
