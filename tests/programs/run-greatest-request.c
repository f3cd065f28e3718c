#include <string.h>
int main(void) { char b[1]; memset(b, 65, 65535); return 3; }
